//! Whole scenes: levels with sides to 16,384, cut into tiles.

use crate::detector::{LONGEST, done, raw};
use crate::{Map, Refusal, SIZED_BYTES, SizedSpot, Thresholds};
use std::ops::Range;

/// The bytes of a scene's record.
pub const SCENE_BYTES: usize = 64;
/// The longest side of a scene.
pub const SCENE_LONGEST: usize = 16_384;
/// How many pixels along a side a tile starts behind the one before it.
pub const TILE_STEP: usize = 4_088;
/// How many pixels long a tile is along a side that does not end before.
pub const TILE_LENGTH: usize = LONGEST;

/// The shortest side that has a judged pixel; a later tile is never shorter.
const SHORTEST: usize = 9;

/// How many tiles a side of a scene has: another one only while pixels past the last remain. A side of 0 has one, of no pixels.
pub fn tile_count(side: usize) -> usize {
    1 + side.saturating_sub(SHORTEST) / TILE_STEP
}

/// The pixels of a side that a tile of this number holds: none where the side has no such tile.
pub fn tile_pixels(side: usize, tile: usize) -> Range<usize> {
    if tile >= tile_count(side) {
        return side..side;
    }
    let start = tile * TILE_STEP;
    start..side.min(start.saturating_add(TILE_LENGTH))
}

/// A spot of a scene: its tile's numbers, and what the join gives of it on that tile, with its places in the scene.
#[derive(Clone, Copy, Debug, PartialEq)]
pub struct SceneSpot {
    /// The tile's numbers, not its first pixel.
    pub tile_row: u16,
    pub tile_col: u16,
    /// The spot on its tile: x, y, key and home pixel are the tile's own; all else is the scene's.
    pub sized: SizedSpot,
}

/// Where a place of a tile lies along the scene's side, exactly.
fn in_scene(tile: u16, place: f32) -> f64 {
    (usize::from(tile) * TILE_STEP) as f64 + f64::from(place)
}

impl SceneSpot {
    /// The spot in a record that `scene` wrote.
    pub fn from_record(record: &[u8; SCENE_BYTES]) -> SceneSpot {
        let sized: [u8; SIZED_BYTES] = core::array::from_fn(|place| record[4 + place]);
        SceneSpot {
            tile_row: u16::from_le_bytes([record[0], record[1]]),
            tile_col: u16::from_le_bytes([record[2], record[3]]),
            sized: SizedSpot::from_record(&sized),
        }
    }

    /// Its x in the scene: 4,088 for each tile before its own, and the own x; nothing is rounded.
    pub fn x(&self) -> f64 {
        in_scene(self.tile_col, self.sized.spot.x)
    }

    /// Its y in the scene.
    pub fn y(&self) -> f64 {
        in_scene(self.tile_row, self.sized.spot.y)
    }

    /// The row and the col of the scene's pixel that it was found at, on a scene of so many cols; its dx and dy are how far it moved from there.
    pub fn pixel(&self, cols: usize) -> (usize, usize) {
        let across = tile_pixels(cols, self.tile_col.into());
        let key = self.sized.spot.key as usize;
        // a tile with a spot is at least nine pixels wide
        let width = across.len().max(1);
        (
            usize::from(self.tile_row) * TILE_STEP + key / width,
            across.start + key % width,
        )
    }
}

/// How many floats of each tile slice a scene takes: those of its first tile.
fn due(rows: usize, cols: usize) -> usize {
    rows.min(TILE_LENGTH) * cols.min(TILE_LENGTH)
}

/// Lists a scene's spots with their sizes in `out`, 64 bytes each, tile by tile: (0, 0), (0, 1), .., then (1, 0), ..; answers their number, and later bytes are
/// kept. Each of the four tile slices is at least min(rows, 4,096) * min(cols, 4,096) floats long; each tile's levels are copied to their fronts, and
/// what is behind a copy is kept.
///
/// Where a tile's records don't all fit in the rest of `out` it is refused with `Full`, which tells how many tiles came before: `out` begins with
/// their records, and the slices with the copy of the tile that did not fit. Any other refusal writes nothing.
pub fn scene(
    set: &[u8],
    thresholds: Thresholds,
    map: Map<'_>,
    tile: [&mut [f32]; 4],
    out: &mut [u8],
) -> Result<usize, Refusal> {
    let fits = |slice: &&mut [f32]| slice.len() >= due(map.rows, map.cols);
    let has_room = tile.iter().all(fits);
    let [l0, l1, l2, l3] = map.levels;
    let [t0, t1, t2, t3] = tile;
    let mut value = 0;
    // SAFETY: each pointer goes with its own slice's length, and what is written overlaps nothing.
    let number = unsafe {
        raw::uramsheg_scene(
            set.as_ptr(),
            set.len(),
            thresholds.peak,
            thresholds.sigma,
            thresholds.ratio,
            thresholds.low,
            thresholds.high,
            map.rows,
            map.cols,
            map.octave,
            l0.as_ptr(),
            l0.len(),
            l1.as_ptr(),
            l1.len(),
            l2.as_ptr(),
            l2.len(),
            l3.as_ptr(),
            l3.len(),
            t0.as_mut_ptr(),
            t0.len(),
            t1.as_mut_ptr(),
            t1.len(),
            t2.as_mut_ptr(),
            t2.len(),
            t3.as_mut_ptr(),
            t3.len(),
            out.as_mut_ptr(),
            out.len(),
            &mut value,
        )
    };
    done(number, value as usize, value as usize).map_err(|refusal| match refusal {
        Refusal::Room if has_room => Refusal::Full { tiles: 0 },
        other => thresholds.told(other),
    })
}

/// The scene's records, in as much room as they need: at first 1,024 and one for each 32 pixels, then four times as many. Two a pixel are always enough.
fn records(set: &[u8], thresholds: Thresholds, map: Map<'_>) -> Result<Vec<u8>, Refusal> {
    // a scene whose sides say another length is refused before any room is looked at
    let pixels = map.levels[0].len();
    let mut tile = [0; 4].map(|_| vec![0.0; due(map.rows, map.cols).min(pixels)]);
    let mut room = 1024 + pixels / 32;
    loop {
        let mut bytes = vec![0; room * SCENE_BYTES];
        let lent = tile.each_mut().map(Vec::as_mut_slice);
        match scene(set, thresholds, map, lent, &mut bytes) {
            Ok(found) => {
                bytes.truncate(found * SCENE_BYTES);
                return Ok(bytes);
            }
            Err(Refusal::Full { .. }) => room *= 4,
            Err(refusal) => return Err(refusal),
        }
    }
}

/// The scene's spots, each with its size, tile by tile.
pub fn scene_spots(
    set: &[u8],
    thresholds: Thresholds,
    map: Map<'_>,
) -> Result<Vec<SceneSpot>, Refusal> {
    let bytes = records(set, thresholds, map)?;
    let records = bytes.as_chunks().0;
    Ok(records.iter().map(SceneSpot::from_record).collect())
}
