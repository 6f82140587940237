//! The spot record of 48 bytes, the former one of 40 at its head: how it is laid, and when it is readable.

use crate::shims::extraction::ScaleSpaceKeypoint;

pub const SPOT: usize = 48;
pub const SIZED: usize = 60;
/// The former record's bytes, and its sized record's.
pub const OLD_SPOT: usize = 40;
pub const OLD_SIZED: usize = 52;

/// The largest displacement of a readable record.
const FARTHEST: f32 = 0.6;

/// A spot as a pass lists it; the text as it stands tells no displacement.
pub struct Spot {
    pub geometry: ScaleSpaceKeypoint,
    pub moved: Option<[f32; 2]>,
    pub samples: [f32; 4],
    pub key: usize,
}

/// The spot's former record.
pub fn old_laid(spot: &Spot) -> [u8; OLD_SPOT] {
    let g = &spot.geometry;
    let mut record = [0; OLD_SPOT];
    let heads = [g.x, g.y, g.sigma, g.peak].into_iter();
    for (bytes, value) in record.chunks_exact_mut(4).zip(heads.chain(spot.samples)) {
        bytes.copy_from_slice(&value.to_le_bytes());
    }
    record[32..36].copy_from_slice(&(spot.key as u32).to_le_bytes());
    record[36] = g.octave as u8;
    record[37] = g.scale_index as u8;
    record[38] = g.is_max as u8;
    record
}

/// The spot's record: the former one, then how far the spot was moved.
pub fn laid(spot: &Spot) -> [u8; SPOT] {
    let [dx, dy] = spot.moved.expect("this build notes displacements");
    let mut record = [0; SPOT];
    record[..OLD_SPOT].copy_from_slice(&old_laid(spot));
    record[40..44].copy_from_slice(&dx.to_le_bytes());
    record[44..48].copy_from_slice(&dy.to_le_bytes());
    record
}

fn float(record: &[u8], at: usize) -> f32 {
    f32::from_le_bytes(record[at..at + 4].try_into().unwrap())
}

/// The record's first eight floats: x, y, sigma, peak, the four centre samples.
pub fn floats(record: &[u8]) -> [f32; 8] {
    core::array::from_fn(|k| float(record, 4 * k))
}

/// The record's displacement: delta x, delta y.
pub fn moved(record: &[u8]) -> [f32; 2] {
    [float(record, 40), float(record, 44)]
}

/// The record's order key.
pub fn key(record: &[u8]) -> usize {
    u32::from_le_bytes(record[32..36].try_into().unwrap()) as usize
}

/// The polarity: a maximum?
pub fn is_max(record: &[u8]) -> bool {
    record[38] == 1
}

/// Every number finite?
pub fn all_finite(numbers: &[f32]) -> bool {
    numbers.iter().all(|number| number.is_finite())
}

/// Document 01's bad record, negated: the former record, and the first bytes of one.
pub fn old_readable(rows: usize, cols: usize, record: &[u8]) -> bool {
    let inside = |place: f32, side: usize| side > 0 && place >= 0.0 && place <= (side - 1) as f32;
    let numbers = floats(record);
    all_finite(&numbers)
        && inside(numbers[0], cols)
        && inside(numbers[1], rows)
        && key(record) < rows * cols
        && record[36] <= 5
        && (record[37] == 1 || record[37] == 2)
        && record[38] <= 1
        && record[39] == 0
}

/// The same of a whole record: its displacement is finite besides, and not too far.
pub fn readable(rows: usize, cols: usize, record: &[u8]) -> bool {
    let moved = moved(record);
    let near = |delta: f32| delta.abs() <= FARTHEST;
    old_readable(rows, cols, record) && all_finite(&moved) && near(moved[0]) && near(moved[1])
}
