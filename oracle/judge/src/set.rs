//! The set, the thresholds, the map, the answers and the choices a caller makes.

pub use crate::fixed_sets::Set;
use crate::fixed_sets::set_t;

impl Set {
    /// Set T of document 01.
    pub fn t() -> Set {
        set_t()
    }

    /// All 129 floats finite, the sigmas positive and strictly rising, the cap not below 0, each order byte under 9.
    pub fn good(&self) -> bool {
        self.floats().all(f32::is_finite)
            && self.sigmas[0] > 0.0
            && self.sigmas.windows(2).all(|pair| pair[0] < pair[1])
            && self.numbers[10] >= 0.0
            && self.order.iter().all(|&byte| byte < 9)
    }

    /// The 129 floats in the record's order.
    fn floats(&self) -> impl Iterator<Item = f32> + '_ {
        let parts: [&[f32]; 5] = [
            &self.sigmas,
            &self.scale,
            &self.geometry,
            &self.spatial,
            &self.numbers,
        ];
        parts.into_iter().flatten().copied()
    }

    /// The record, good or not.
    pub fn to_record(&self) -> [u8; 528] {
        let mut record = [0; 528];
        for (bytes, value) in record.chunks_exact_mut(4).zip(self.floats()) {
            bytes.copy_from_slice(&value.to_le_bytes());
        }
        record[516..525].copy_from_slice(&self.order);
        record
    }

    /// The good set of a record, or None: refusal 4.
    pub fn from_record(record: &[u8]) -> Option<Set> {
        if record.len() != 528 || record[525..] != [0, 0, 0] {
            return None;
        }
        Some(Set::unchecked(record)).filter(Set::good)
    }

    /// The set of a record's 528 bytes, good or not.
    pub fn unchecked(record: &[u8]) -> Set {
        let float = |at: usize| f32::from_le_bytes(record[4 * at..4 * at + 4].try_into().unwrap());
        Set {
            sigmas: core::array::from_fn(float),
            scale: core::array::from_fn(|k| float(4 + k)),
            geometry: core::array::from_fn(|k| float(16 + k)),
            spatial: core::array::from_fn(|k| float(28 + k)),
            numbers: core::array::from_fn(|k| float(118 + k)),
            order: core::array::from_fn(|k| record[516 + k]),
        }
    }
}

/// Any five floats, NaN too.
#[derive(Clone, Copy, Debug)]
pub struct Thresholds {
    pub peak: f32,
    pub sigma: f32,
    pub ratio: f32,
    pub low: f32,
    pub high: f32,
}

impl From<[f32; 5]> for Thresholds {
    fn from([peak, sigma, ratio, low, high]: [f32; 5]) -> Thresholds {
        Thresholds {
            peak,
            sigma,
            ratio,
            low,
            high,
        }
    }
}

/// Four levels by columns, and what a spot of theirs must pass.
#[derive(Clone, Copy, Debug)]
pub struct Map<'a> {
    pub thresholds: Thresholds,
    pub rows: usize,
    pub cols: usize,
    pub octave: usize,
    pub levels: [&'a [f32]; 4],
}

/// The published text's two ways to detect.
#[derive(Clone, Copy, PartialEq, Eq, Debug)]
pub enum Pass {
    Reference,
    Streaming,
}

/// The published text as it stands, or with document 01's named differences.
#[derive(Clone, Copy, PartialEq, Eq, Debug)]
pub enum Rules {
    Published,
    Document,
}

/// log2 and exp by the definitions' step lists, or Rust's own.
#[derive(Clone, Copy, PartialEq, Eq, Debug)]
pub enum Logs {
    Steps,
    Rust,
}

/// A count, or a refusal; its index is 0 unless the number is 5.
#[derive(Clone, Copy, PartialEq, Eq, Debug)]
pub enum Answer {
    Done(usize),
    Refused { number: u32, index: usize },
}

/// Why a correction gives no size: 4, or 7 with its cause, 1 or 2; beside 4 the cause is 0.
#[derive(Clone, Copy, PartialEq, Eq, Debug)]
pub struct NoSize {
    pub number: u32,
    pub cause: u8,
}
