//! A whole scene against the detections of its tiles, on maps of detection's kinds, run after run in turn.
use crate::SET;
use crate::detection::{self, Asked};
use crate::maps::{self, Levels};
use judge::fixed;
use std::time::Instant;
use uramsheg::{Map, SCENE_BYTES, SPOT_BYTES, TILE_LENGTH, tile_count, tile_pixels};

/// The least of so many runs is taken.
const RUNS: usize = 3;
/// The side of the map that a scene repeats.
const PART: usize = 1024;

/// What a scene is lent, and room for a tile's list.
struct Lent {
    tile: Levels,
    out: Vec<u8>,
    list: Vec<u8>,
}

impl Lent {
    fn new(side: usize) -> Lent {
        let longest = side.min(TILE_LENGTH);
        Lent {
            tile: [0; 4].map(|_| vec![0.0; longest * longest]),
            out: vec![0; SCENE_BYTES * side * side / 16],
            list: detection::room(longest),
        }
    }

    /// The seconds of a scene, and its records, which `out` begins with.
    fn whole(&mut self, asked: &Asked) -> (f64, usize) {
        let judge::Map { rows, cols, octave, levels, .. } = asked.map();
        let (record, thresholds) = (fixed::set(SET).to_record(), asked.thresholds());
        let tile = self.tile.each_mut().map(Vec::as_mut_slice);
        let began = Instant::now();
        let found = uramsheg::scene(&record, thresholds, Map { rows, cols, octave, levels }, tile, &mut self.out);
        (began.elapsed().as_secs_f64(), found.expect("the scene refused the benchmark's map"))
    }

    /// Copies a tile, column by column. Answers its sides.
    fn copy(&mut self, asked: &Asked, row: usize, col: usize) -> (usize, usize) {
        let (down, across) = (tile_pixels(asked.side, row), tile_pixels(asked.side, col));
        for (to, from) in self.tile.iter_mut().zip(asked.levels) {
            for (to, col) in to.chunks_exact_mut(down.len()).zip(across.clone()) {
                to.copy_from_slice(&from[col * asked.side..][down.clone()]);
            }
        }
        (down.len(), across.len())
    }

    /// The seconds of the tile's detection, whose copy is made, and its spots, which `list` begins with.
    fn detect(&mut self, asked: &Asked, (rows, cols): (usize, usize)) -> (f64, usize) {
        let (record, thresholds) = (fixed::set(SET).to_record(), asked.thresholds());
        let levels = self.tile.each_ref().map(|slice| &slice[..rows * cols]);
        let began = Instant::now();
        let found = uramsheg::detect(&record, thresholds, Map { rows, cols, octave: 0, levels }, &mut self.list);
        (began.elapsed().as_secs_f64(), found.expect("detection refused a tile"))
    }

    /// The seconds of all tiles' detections and of their copies. The scene's records must be those of their lists, one behind the other.
    fn tiles(&mut self, asked: &Asked, records: usize) -> [f64; 2] {
        let (across, mut spots, mut seconds) = (tile_count(asked.side), 0, [0.0; 2]);
        for tile in 0..across * across {
            let began = Instant::now();
            let sides = self.copy(asked, tile / across, tile % across);
            seconds[1] += began.elapsed().as_secs_f64();
            let (taken, found) = self.detect(asked, sides);
            seconds[0] += taken;
            let listed = self.list[..SPOT_BYTES * found].chunks(SPOT_BYTES);
            let same = listed.zip(self.out[SCENE_BYTES * spots..].chunks(SCENE_BYTES)).all(|(spot, record)| record[4..].starts_with(spot));
            assert!(same, "the scene's records differ from the spots of tile {tile}");
            spots += found;
        }
        assert_eq!(records, spots, "records of the scene and spots of its tiles");
        seconds
    }
}

/// A row for each peak.
fn rows(name: &str, side: usize, levels: &Levels, peaks: &[f32]) {
    let mut lent = Lent::new(side);
    for &peak in peaks {
        let asked = Asked { side, levels, peak };
        let (mut least, mut found) = ([f64::INFINITY; 3], 0);
        for _ in 0..RUNS {
            let whole;
            (whole, found) = lent.whole(&asked);
            let [detections, copies] = lent.tiles(&asked, found);
            least.iter_mut().zip([whole, detections, copies]).for_each(|(least, seconds)| *least = least.min(seconds));
        }
        let [whole, detections, copies] = least.map(|seconds| asked.each(seconds));
        println!("| {} | {found} | {whole:.1} | {detections:.1} | {:.2} | {copies:.1} |", detection::title(name, &asked), whole / detections);
    }
}

/// Blobs at each peak, and plumes. A scene repeats a smaller map, so that it is made quickly.
pub fn table(side: usize) {
    let (part, set) = (side.min(PART), fixed::set(SET));
    let tiles = tile_count(side);
    println!("A scene of {side} by {side} is {tiles} by {tiles} tiles.\n");
    println!("| map | spots | scene, ns a pixel | its tiles' detections | ratio | their copies |");
    println!("|---|---|---|---|---|---|");
    rows("blobs", side, &maps::repeated(&maps::blobs(part, set.sigmas), part, side), &detection::PEAKS);
    let plumes = uramsheg::four_levels(&set.to_record(), part, part, 0, &maps::plumes(part)).expect("levels refused the raw map");
    rows("plumes (levels of a raw map, its noise below 0.1)", side, &maps::repeated(&plumes, part, side), &[0.1]);
}
