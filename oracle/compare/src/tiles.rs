//! What tiles list, put back into the scene: small scenes cut into small tiles, each detected and joined as a map of its own, against the judge's list of
//! the scene as one map.

use crate::judged::{cut_scene, map_of, set_of};
use crate::own::told;
use cases::feeds::start_of;
use cases::maps::Levels;
use cases::records::SIZED;
use cases::scenes::{RECORD, small_cut};
use cases::{Case, Scene};
use judge::Map;
use judge::scene::{Cut, untiled_sized};
use subject::{Fed, Subject, Tiling, answer, difference};

/// What tiles leave as it is: a spot's pixel of the scene, and of its sized record all but x, y, key and home, its displacement too.
type Spot = (usize, usize, Vec<u8>);

fn word(bytes: &[u8], at: usize) -> usize {
    u32::from_le_bytes(core::array::from_fn(|k| bytes[at + k])) as usize
}

fn half(bytes: &[u8], at: usize) -> usize {
    u16::from_le_bytes(core::array::from_fn(|k| bytes[at + k])).into()
}

/// A sized record's spot, its key one of a map with these cols that begins at this pixel.
fn spot(sized: &[u8], cols: usize, (row, col): (usize, usize)) -> Spot {
    let key = word(sized, 32);
    let same = [&sized[8..32], &sized[36..52], &sized[56..]].concat();
    (row + key / cols, col + key % cols, same)
}

/// In the scene's order, at one pixel the minimum first.
fn ordered(mut spots: Vec<Spot>) -> Vec<Spot> {
    spots.sort_by_key(|(row, col, same)| (*row, *col, same[26]));
    spots
}

/// The spots of a scene's records, cut so far apart, its tiles eight pixels longer.
pub fn put_back(records: &[u8], step: usize, cols: usize) -> Vec<Spot> {
    let back = |record: &[u8]| {
        let [row, col] = [0, 2].map(|at| step * half(record, at));
        spot(&record[4..], (cols - col).min(step + 8), (row, col))
    };
    ordered(records.chunks_exact(RECORD).map(back).collect())
}

/// The spots of a map of any sides, by the judge.
pub fn untiled(set: &judge::Set, map: Map) -> Vec<Spot> {
    let sized = untiled_sized(set, map);
    let spots = sized.iter().map(|one| spot(one, map.cols, (0, 0)));
    ordered(spots.collect())
}

/// How many tiles stand along a side: one more for every step that begins nine pixels before its end or sooner.
fn count(side: usize, step: usize) -> usize {
    1 + side.saturating_sub(9) / step
}

/// A tile of a scene as a map of its own.
fn tile_of(scene: &Scene, step: usize, (row, col): (usize, usize)) -> Scene {
    let (top, left) = (step * row, step * col);
    let (rows, cols) = (
        (scene.rows - top).min(step + 8),
        (scene.cols - left).min(step + 8),
    );
    let pixel = |level: usize, place: usize| {
        let (row, col) = (top + place % rows, left + place / rows);
        scene.levels[level][col * scene.rows + row]
    };
    let levels: Levels =
        core::array::from_fn(|level| (0..rows * cols).map(|place| pixel(level, place)).collect());
    Scene {
        set: scene.set.clone(),
        thresholds: scene.thresholds,
        rows,
        cols,
        octave: scene.octave,
        levels,
    }
}

/// A map's list with its sizes, by a subject's detection and join; None where it is refused.
fn sized_list(subject: &mut dyn Subject, map: Scene) -> Option<Vec<u8>> {
    let told = answer(subject, &Case::Sized { scene: map })?;
    let end = told.iter().position(|&byte| byte == b':')?;
    told.starts_with(b"done").then(|| told[end + 1..].to_vec())
}

/// The records of a scene's tiles, row by row, by a subject's detection and join.
fn assembled(subject: &mut dyn Subject, scene: &Scene, step: usize) -> Option<Vec<u8>> {
    let mut all = Vec::new();
    for row in 0..count(scene.rows, step) {
        for col in 0..count(scene.cols, step) {
            let sized = sized_list(subject, tile_of(scene, step, (row, col)))?;
            let numbers = [row, col]
                .map(|number| (number as u16).to_le_bytes())
                .concat();
            for one in sized.chunks_exact(SIZED) {
                all.extend([&numbers, one].concat());
            }
        }
    }
    Some(all)
}

/// The judge's own records of a scene that is cut so, in room for as many bytes.
fn judged(scene: &Scene, step: usize, room: usize) -> (Fed, Vec<u8>) {
    let mut slices = [(); 4].map(|()| vec![0.0; scene.rows * scene.cols]);
    let mut out = vec![0; room];
    let lent = Tiling {
        slices: slices.each_mut().map(Vec::as_mut_slice),
        out: &mut out,
    };
    let levels = scene.levels.each_ref().map(Vec::as_slice);
    let fed = cut_scene(Cut::of(step), &start_of(scene), levels, lent);
    (fed, out)
}

/// Where a scene's tiles part from the judge's answer or from its list of the scene untiled; how many spots it has.
fn parted(subject: &mut dyn Subject, scene: &Scene, step: usize) -> Result<usize, String> {
    let records = assembled(subject, scene, step).ok_or("a tile is refused")?;
    let spots = records.len() / RECORD;
    let (fed, sound) = judged(scene, step, records.len());
    if (fed.number, fed.value) != (0, spots as u64) {
        return Err(format!("{spots} spots, and the judge answers {fed:?}"));
    }
    if sound != records {
        return Err(difference(&sound, &records));
    }
    if put_back(&records, step, scene.cols) != untiled(&set_of(&scene.set), map_of(scene)) {
        return Err("what is put back is not the untiled list".into());
    }
    Ok(spots)
}

/// Small scenes cut into small tiles.
pub fn run(name: &str, seed: u64, scenes: usize, subject: &mut dyn Subject) -> bool {
    let (mut tiles, mut spots, mut differing, mut first) = (0, 0, 0, None);
    for number in 0..scenes {
        let (scene, step) = small_cut(seed, number);
        tiles += count(scene.rows, step) * count(scene.cols, step);
        match parted(subject, &scene, step) {
            Ok(listed) => spots += listed,
            Err(fault) => {
                differing += 1;
                first.get_or_insert_with(|| format!("seed {seed}, scene {number}: {fault}"));
            }
        }
    }
    let seen = format!("{scenes} scenes, {differing} differ, {tiles} tiles, {spots} spots");
    told(name, first, &seen)
}
