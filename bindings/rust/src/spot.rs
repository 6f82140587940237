//! Spot records and sized records as values.

use crate::Missing;

/// The bytes of a spot record.
pub const SPOT_BYTES: usize = 48;
/// The bytes of a sized record.
pub const SIZED_BYTES: usize = 60;
/// The bytes of a spot record from before there were displacements.
pub const OLD_SPOT_BYTES: usize = 40;
/// The bytes of a sized record from before there were displacements.
pub const OLD_SIZED_BYTES: usize = 52;

/// A spot as detection lists it.
#[derive(Clone, Copy, Debug, PartialEq)]
pub struct Spot {
    pub x: f32,
    pub y: f32,
    pub sigma: f32,
    pub peak: f32,
    /// The four centre samples, from which its size comes.
    pub samples: [f32; 4],
    /// row * cols + col of its own pixel, from which it has moved by dx and dy.
    pub key: u32,
    pub octave: u8,
    pub scale_index: u8,
    pub is_max: bool,
    /// How far detection moved the spot from its own pixel across columns, as computed: at most 0.6 of a pixel either way, and +0.0 where it did not.
    ///
    /// x is the pixel's col plus dx, rounded once. The larger the col, the more of the move this rounding loses: x less the col is dx only nearly. So a move
    /// is read here, and not taken from x.
    pub dx: f32,
    /// The same along rows: y is the pixel's row plus dy, rounded once.
    pub dy: f32,
}

/// A spot of an old list, from before there were displacements: a `Spot` without dx and dy, which its record lacks. Nothing tells them exactly.
#[derive(Clone, Copy, Debug, PartialEq)]
pub struct OldSpot {
    pub x: f32,
    pub y: f32,
    pub sigma: f32,
    pub peak: f32,
    /// The four centre samples, from which its size comes.
    pub samples: [f32; 4],
    /// row * cols + col of its own pixel, from which it may have moved by 0.6 of a pixel.
    pub key: u32,
    pub octave: u8,
    pub scale_index: u8,
    pub is_max: bool,
}

/// A spot with its size and its home pixel: a `Spot`, or an `OldSpot` where the list is an old one.
#[derive(Clone, Copy, Debug, PartialEq)]
pub struct SizedSpot<S = Spot> {
    pub spot: S,
    /// The corrected sigma; None where the spot has no size.
    pub size: Option<f32>,
    /// Why the spot has no size; None where it has one, and in records from before causes were given.
    pub missing: Option<Missing>,
    /// The home pixel: the row nearest to y and the col nearest to x, a half to the larger.
    pub row: u16,
    pub col: u16,
}

fn word(bytes: &[u8], at: usize) -> [u8; 4] {
    [bytes[at], bytes[at + 1], bytes[at + 2], bytes[at + 3]]
}

fn float(bytes: &[u8], at: usize) -> f32 {
    f32::from_le_bytes(word(bytes, at))
}

/// A kind of spot, with its records.
pub trait Kind: Sized {
    /// The bytes of its spot record, with which its sized record begins.
    const BYTES: usize;
    /// Its sized record.
    type Record: Record<Spot = Self>;

    /// The spot that a record begins with.
    fn from_bytes(record: &[u8]) -> Self;
}

/// A sized record, whose length tells the kind of its spot.
pub trait Record: AsRef<[u8]> {
    type Spot: Kind<Record = Self>;
}

impl Record for [u8; SIZED_BYTES] {
    type Spot = Spot;
}

impl Record for [u8; OLD_SIZED_BYTES] {
    type Spot = OldSpot;
}

impl Kind for OldSpot {
    const BYTES: usize = OLD_SPOT_BYTES;
    type Record = [u8; OLD_SIZED_BYTES];

    fn from_bytes(record: &[u8]) -> OldSpot {
        OldSpot {
            x: float(record, 0),
            y: float(record, 4),
            sigma: float(record, 8),
            peak: float(record, 12),
            samples: [16, 20, 24, 28].map(|at| float(record, at)),
            key: u32::from_le_bytes(word(record, 32)),
            octave: record[36],
            scale_index: record[37],
            is_max: record[38] == 1,
        }
    }
}

impl Kind for Spot {
    const BYTES: usize = SPOT_BYTES;
    type Record = [u8; SIZED_BYTES];

    fn from_bytes(record: &[u8]) -> Spot {
        // a record begins as an old one
        let old = OldSpot::from_bytes(record);
        Spot {
            x: old.x,
            y: old.y,
            sigma: old.sigma,
            peak: old.peak,
            samples: old.samples,
            key: old.key,
            octave: old.octave,
            scale_index: old.scale_index,
            is_max: old.is_max,
            dx: float(record, 40),
            dy: float(record, 44),
        }
    }
}

impl Spot {
    /// The spot in a record that detection wrote.
    pub fn from_record(record: &[u8; SPOT_BYTES]) -> Spot {
        Spot::from_bytes(record)
    }

    /// Its record, as detection writes it.
    pub fn to_record(&self) -> [u8; SPOT_BYTES] {
        let [s0, s1, s2, s3] = self.samples;
        let floats = [self.x, self.y, self.sigma, self.peak, s0, s1, s2, s3];
        let bytes = [
            self.octave,
            self.scale_index,
            u8::from(self.is_max),
            0, // a record's spare byte
        ];
        let words = floats.map(f32::to_le_bytes).into_iter().chain([
            self.key.to_le_bytes(),
            bytes,
            self.dx.to_le_bytes(),
            self.dy.to_le_bytes(),
        ]);
        let mut record = [0; SPOT_BYTES];
        for (to, word) in record.as_chunks_mut().0.iter_mut().zip(words) {
            *to = word;
        }
        record
    }
}

impl OldSpot {
    /// The spot in a record of an old list.
    pub fn from_record(record: &[u8; OLD_SPOT_BYTES]) -> OldSpot {
        OldSpot::from_bytes(record)
    }
}

impl<S> SizedSpot<S> {
    /// The spot in a record that the join wrote: 60 bytes have a `Spot` in them; the 52 that the join of old lists wrote have an `OldSpot`.
    pub fn from_record<R: Record<Spot = S>>(record: &R) -> SizedSpot<S>
    where
        S: Kind<Record = R>,
    {
        let bytes = record.as_ref();
        let [size, row, col, accepted, cause] = [0, 4, 6, 8, 9].map(|at| S::BYTES + at);
        SizedSpot {
            spot: S::from_bytes(bytes),
            size: (bytes[accepted] == 1).then(|| float(bytes, size)),
            missing: Missing::from_number(bytes[cause].into()),
            row: u16::from_le_bytes([bytes[row], bytes[row + 1]]),
            col: u16::from_le_bytes([bytes[col], bytes[col + 1]]),
        }
    }
}
