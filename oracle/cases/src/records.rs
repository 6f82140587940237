//! Lists of spot records for the join: sound ones, and each field damaged.

use crate::case::Case;
use crate::random::Random;
use crate::sets::Set;

/// The bytes of a spot record.
pub const SPOT: usize = 48;
/// The bytes of a sized record.
pub const SIZED: usize = 60;
/// The bytes of an old spot record, which are a spot record's first.
pub const OLD_SPOT: usize = 40;
/// The bytes of an old sized record.
pub const OLD_SIZED: usize = 52;
/// Where a record has delta x; delta y follows.
pub const MOVED: usize = 40;

/// A list's form: the bytes of a record and of a sized one.
#[derive(Clone, Copy, Debug, PartialEq, Eq)]
pub struct Form {
    pub spot: usize,
    pub sized: usize,
}

/// The form of the lists that detection writes.
pub const PRESENT: Form = Form {
    spot: SPOT,
    sized: SIZED,
};
/// The form of old lists.
pub const OLD: Form = Form {
    spot: OLD_SPOT,
    sized: OLD_SIZED,
};

impl Form {
    /// The join of a list of this form into `room` bytes.
    pub fn join(
        self,
        set: Set,
        (rows, cols): (usize, usize),
        list: Vec<u8>,
        room: usize,
        fill: u8,
    ) -> Case {
        Case::Join {
            old: self == OLD,
            set,
            rows,
            cols,
            list,
            room,
            fill,
        }
    }

    /// The room that a list needs.
    pub fn needed(self, list: &[u8]) -> usize {
        list.len() / self.spot * self.sized
    }
}

/// The old list of a list; a part of a record at its end stays one.
pub fn cut(list: &[u8]) -> Vec<u8> {
    let part = |record: &[u8]| match record.len() {
        SPOT => record[..OLD_SPOT].to_vec(),
        length => record[..length.min(OLD_SPOT - 1)].to_vec(),
    };
    list.chunks(SPOT).flat_map(part).collect()
}

/// The bytes of one record from its eight floats, key and four small fields; its displacement is made of these alone.
pub fn bytes(floats: [f32; 8], key: u32, small: [u8; 4]) -> [u8; SPOT] {
    let mut record = [0u8; SPOT];
    for (place, value) in floats.iter().enumerate() {
        record[4 * place..4 * place + 4].copy_from_slice(&value.to_le_bytes());
    }
    record[32..36].copy_from_slice(&key.to_le_bytes());
    record[36..40].copy_from_slice(&small);
    let parts = record[..MOVED].chunks_exact(8);
    let parts = parts.map(|part| u64::from_le_bytes(core::array::from_fn(|k| part[k])));
    let sum = parts.fold(0, |sum: u64, part| sum.rotate_left(7) ^ part);
    let random = &mut Random::new(sum, SOURCE, 0);
    put_moved(&mut record, [near(random), near(random)]);
    record
}

/// Apart from the families' own sources.
const SOURCE: u64 = 1 << 36;

/// A displacement that a record may have.
fn near(random: &mut Random) -> f32 {
    let any = random.between(-0.6, 0.6);
    random.pick(&[
        any, any, any, any, 0.0, -0.0, 0.5, -0.5, 0.6, -0.6, 1e-45, -1e-39,
    ])
}

/// Puts a displacement into a record.
pub fn put_moved(record: &mut [u8], moved: [f32; 2]) {
    for (bytes, delta) in record[MOVED..SPOT].chunks_exact_mut(4).zip(moved) {
        bytes.copy_from_slice(&delta.to_le_bytes());
    }
}

/// A record that the join accepts, wherever rows and cols are above 0; `sigmas` guide its sigma.
pub fn sound(random: &mut Random, sigmas: &[f32; 4], rows: usize, cols: usize) -> [u8; SPOT] {
    let key = random.below((rows * cols).max(1));
    let place = |random: &mut Random, home: usize, side: usize| {
        let last = side.max(1) as f32 - 1.0;
        let exact = home as f32 + random.between(-0.6, 0.6);
        let value = random.pick(&[exact, exact, exact, 0.0, -0.0, last, home as f32]);
        value.clamp(-0.0, last)
    };
    let (x, y) = (
        place(random, key % cols.max(1), cols),
        place(random, key / cols.max(1), rows),
    );
    at(random, sigmas, key, x, y)
}

/// A record of this key and this place, the rest of it sound.
pub fn at(random: &mut Random, sigmas: &[f32; 4], key: usize, x: f32, y: f32) -> [u8; SPOT] {
    let samples = samples(random);
    let sigma = match random.below(6) {
        0 => random.finite_pattern(),
        1 => random.pick(&[0.0, -0.0, -1.0, 1e-45, f32::MAX]),
        _ => random.between(f64::from(sigmas[0]), f64::from(sigmas[3])),
    };
    let peak = if random.once_in(8) { -0.0 } else { samples[1] };
    let floats = [
        x, y, sigma, peak, samples[0], samples[1], samples[2], samples[3],
    ];
    let small = [
        random.below(6) as u8,
        random.from_to(1, 2) as u8,
        random.below(2) as u8,
        0,
    ];
    bytes(floats, key as u32, small)
}

/// Four finite samples, often of one sign as a size needs.
pub fn samples(random: &mut Random) -> [f32; 4] {
    let sign = if random.once_in(2) { 1.0 } else { -1.0 };
    let size = match random.below(4) {
        0 => crate::random::power(random.from_to(0, 60) as i32 - 30),
        _ => 1.0,
    };
    match random.below(8) {
        0 => core::array::from_fn(|_| random.finite_pattern()),
        1 => core::array::from_fn(|_| random.between(-1.0, 1.0)),
        2 => core::array::from_fn(|_| random.from_to(0, 8) as f32 - 4.0),
        _ => {
            let middle = f64::from(random.between(0.3, 2.5));
            let wide = f64::from(random.between(0.5, 4.0));
            let grain = random.pick(&[0.0, 0.0, 0.01, 0.2]);
            core::array::from_fn(|k| {
                let away = k as f64 - middle;
                let shake = 1.0 + grain * (random.unit() - 0.5);
                (sign * size * shake / (1.0 + away * away / (wide * wide))) as f32
            })
        }
    }
}

/// Spoils one field of one record, other than its displacement, so that both joins refuse it.
pub fn spoil(random: &mut Random, rows: usize, cols: usize, record: &mut [u8]) {
    let mut put = |place: usize, value: f32| {
        record[4 * place..4 * place + 4].copy_from_slice(&value.to_le_bytes());
    };
    let below_zero = [-1e-45, -0.5, -1.0];
    match random.below(7) {
        0 => put(
            random.below(8),
            random.pick(&[f32::NAN, f32::INFINITY, f32::NEG_INFINITY]),
        ),
        1 => put(
            0,
            random.pick(&[(cols as f32 - 1.0).next_up(), cols as f32, below_zero[0]]),
        ),
        2 => put(
            1,
            random.pick(&[(rows as f32 - 1.0).next_up(), rows as f32, below_zero[1]]),
        ),
        3 => {
            let key = random.pick(&[(rows * cols) as u32, u32::MAX, (rows * cols) as u32 + 1]);
            record[32..36].copy_from_slice(&key.to_le_bytes());
        }
        4 => record[36] = random.pick(&[6, 7, 255]),
        5 => record[37] = random.pick(&[0, 3, 255]),
        _ => {
            let (place, value) = random.pick(&[(38, 2), (38, 255), (39, 1), (39, 128)]);
            record[place] = value;
        }
    }
}

/// A list with one damaged record, every record before it sound.
pub fn damaged(
    random: &mut Random,
    sigmas: &[f32; 4],
    (rows, cols): (usize, usize),
    form: Form,
) -> Vec<u8> {
    let mut list = Vec::new();
    for _ in 0..random.from_to(1, 4) {
        list.extend_from_slice(&sound(random, sigmas, rows, cols)[..form.spot]);
    }
    let at = list.len() - form.spot;
    spoil(random, rows, cols, &mut list[at..]);
    if random.once_in(2) {
        list.extend_from_slice(&sound(random, sigmas, rows, cols)[..form.spot]);
    }
    if random.once_in(8) {
        let length = list.len() - random.from_to(1, form.spot - 1);
        list.truncate(length);
    }
    list
}

/// A list of records; `bad` says whether to damage it, in a record or in its length.
pub fn list(
    random: &mut Random,
    sigmas: &[f32; 4],
    (rows, cols): (usize, usize),
    form: Form,
    bad: bool,
) -> Vec<u8> {
    let count = random
        .pick(&[0, 1, 1, 2, 3, 5, 9, 20])
        .max(usize::from(bad));
    let mut list = Vec::new();
    for _ in 0..count {
        list.extend_from_slice(&sound(random, sigmas, rows, cols)[..form.spot]);
    }
    if bad {
        let spoilt = random.pick(&[1, 1, 2]);
        for _ in 0..spoilt {
            let at = random.below(count) * form.spot;
            spoil(random, rows, cols, &mut list[at..at + form.spot]);
        }
        if random.once_in(3) {
            let length = list.len() - random.from_to(1, form.spot - 1);
            list.truncate(length);
        }
    }
    list
}
