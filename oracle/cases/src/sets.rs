//! Sets of every kind: set T, real-looking ones, extreme ones and damaged ones.

use crate::random::{Random, power};

/// The floats and bytes of a set, good or not.
#[derive(Clone, Debug, PartialEq)]
pub struct Set {
    pub sigmas: [f32; 4],
    pub scale: [f32; 12],
    pub geometry: [f32; 12],
    pub spatial: [f32; 90],
    pub numbers: [f32; 11],
    pub order: [u8; 9],
}

/// The bytes of a set record.
pub const RECORD: usize = 528;
/// The floats of a set.
pub const FLOATS: usize = 129;

impl Set {
    /// The float at a place of the record, counted in floats.
    pub fn float(&mut self, place: usize) -> &mut f32 {
        match place {
            0..=3 => &mut self.sigmas[place],
            4..=15 => &mut self.scale[place - 4],
            16..=27 => &mut self.geometry[place - 16],
            28..=117 => &mut self.spatial[place - 28],
            _ => &mut self.numbers[place - 118],
        }
    }

    /// The record form, spare bytes zero.
    pub fn record(&self) -> [u8; RECORD] {
        let mut record = [0u8; RECORD];
        let mut copy = self.clone();
        for place in 0..FLOATS {
            let bytes = copy.float(place).to_le_bytes();
            record[4 * place..4 * place + 4].copy_from_slice(&bytes);
        }
        record[516..525].copy_from_slice(&self.order);
        record
    }

    /// Document 01's set T.
    pub fn t() -> Set {
        let cubic = [0., 0., 0., 1., 0., 0., 0., 1., 0., 0., 0., 1.];
        let mut spatial = [0.0; 90];
        for block in [0, 45] {
            spatial[block + 3] = 1.0;
            spatial[block + 9 + 5] = 1.0;
            spatial[block + 27 + 4] = 0.25;
        }
        Set {
            sigmas: [1., 2., 3., 4.],
            scale: cubic,
            geometry: cubic,
            spatial,
            numbers: [1., 0.5, -4., 4., 0.5, 16., 0.5, 1., 0.125, 0.5, 1.],
            order: [0, 1, 2, 3, 4, 5, 6, 7, 8],
        }
    }
}

/// The first three columns of the matrix that takes four values at `places` to their cubic, rows a to d.
fn interpolating(places: [f64; 4]) -> [f32; 12] {
    let mut out = [0.0f32; 12];
    for column in 0..3 {
        let others: Vec<f64> = (0..4).filter(|&k| k != column).map(|k| places[k]).collect();
        let [p, q, r] = [others[0], others[1], others[2]];
        let own = places[column];
        let under = (own - p) * (own - q) * (own - r);
        out[column] = (1.0 / under) as f32;
        out[3 + column] = (-(p + q + r) / under) as f32;
        out[6 + column] = ((p * q + p * r + q * r) / under) as f32;
        out[9 + column] = (-p * q * r / under) as f32;
    }
    out
}

/// The least-squares quadratic of a 3 by 3 patch, rows w1 to w5, samples by rows.
fn quadratic() -> [[f64; 9]; 5] {
    let mut rows = [[0.0; 9]; 5];
    for place in 0..9 {
        let (y, x) = ((place / 3) as f64 - 1.0, (place % 3) as f64 - 1.0);
        rows[0][place] = (x * x - 2.0 / 3.0) / 2.0;
        rows[1][place] = (y * y - 2.0 / 3.0) / 2.0;
        rows[2][place] = x * y / 4.0;
        rows[3][place] = x / 6.0;
        rows[4][place] = y / 6.0;
    }
    rows
}

fn order(random: &mut Random) -> [u8; 9] {
    let mut order: [u8; 9] = core::array::from_fn(|k| k as u8);
    match random.below(4) {
        0 => {}
        1 => order = [4, 1, 3, 5, 7, 0, 2, 6, 8],
        2 => {
            for k in (1..9).rev() {
                order.swap(k, random.below(k + 1));
            }
        }
        _ => {
            for _ in 0..random.from_to(1, 3) {
                order[random.below(9)] = random.below(9) as u8;
            }
        }
    }
    order
}

/// A set like the published one: sigmas near 1.6 * 2^(k/2), interpolating cubics, a least-squares quadratic.
pub fn real(random: &mut Random) -> Set {
    let root = 2.0f64.sqrt();
    let base = if random.once_in(2) {
        1.6
    } else {
        f64::from(random.between(0.6, 2.5))
    };
    let loose = random.pick(&[0.0, 0.0, 1e-4, 1e-2, 0.1]);
    let steps = [1.0, root, 2.0, 2.0 * root];
    let sigmas: [f64; 4] = steps.map(|s| base * s * (1.0 + 0.3 * loose * random.unit()));
    let order = order(random);
    let mut spatial = [0.0f32; 90];
    for (place, value) in spatial.iter_mut().enumerate() {
        let (row, column) = (place % 45 / 9, place % 9);
        let jitter = 1.0 + loose * (random.unit() - 0.5);
        *value = (quadratic()[row][order[column] as usize] * jitter) as f32;
    }
    let mut shake = |value: f32| (f64::from(value) * (1.0 + loose * (random.unit() - 0.5))) as f32;
    let scale = interpolating(sigmas).map(&mut shake);
    let geometry = interpolating([0.0, 0.5, 1.0, 1.5]).map(&mut shake);
    Set {
        sigmas: sigmas.map(|s| s as f32),
        scale,
        geometry,
        spatial,
        numbers: numbers(random, base as f32),
        order,
    }
}

/// The eleven geometry numbers of a real-looking set.
fn numbers(random: &mut Random, origin: f32) -> [f32; 11] {
    let beta = random.between(0.05, 0.9);
    let lower = if random.once_in(12) {
        0.0
    } else {
        random.between(1e-5, 0.02)
    };
    let upper = if random.once_in(12) {
        lower
    } else {
        lower * random.between(1.5, 30.0)
    };
    [
        origin,
        random.pick(&[0.0, 1e-6, 1e-4, 0.01]),
        random.between(-0.5, 0.2),
        random.between(1.2, 2.0),
        origin * random.between(0.7, 1.2),
        origin * random.between(2.2, 3.5),
        beta,
        random.pick(&[1.0, 1.0, 0.95, 0.05]),
        lower,
        upper.max(random.pick(&[0.0, 0.0, 0.01])),
        random.pick(&[0.025, 0.025, 0.25, 1.0]),
    ]
}

/// Set T with simple changes, so that ties and exact edges stay common.
pub fn near_t(random: &mut Random) -> Set {
    let mut set = Set::t();
    for _ in 0..random.from_to(0, 6) {
        let place = random.from_to(28, 117);
        *set.float(place) = random.pick(&[0.0, 0.25, 0.5, 1.0, -1.0, -0.25, 0.3, 2.0]);
    }
    if random.once_in(2) {
        let place = random.from_to(4, 27);
        *set.float(place) = random.pick(&[0.0, 0.25, -0.5, 1.0, -1.0, 2.0, 1e-6]);
    }
    if random.once_in(3) {
        set.order = order(random);
    }
    if random.once_in(3) {
        set.numbers = numbers(random, 1.0);
    }
    set
}

/// The set under which every judged pixel of a steady map is a spot at sigma 0.
pub fn every_pixel() -> Set {
    let mut set = Set::t();
    set.scale = [0., 0., 0., 0., -1., 0., 0., 1., 0., 0., 0., 1.];
    set.spatial = [0.0; 90];
    for block in [0, 45] {
        for (place, weight) in [(3, 1.0), (4, -2.0), (5, 1.0)] {
            set.spatial[block + place] = weight;
        }
        for (place, weight) in [(1, 1.0), (4, -2.0), (7, 1.0)] {
            set.spatial[block + 9 + place] = weight;
        }
    }
    set
}

/// A real-looking set whose cubics have subnormal discriminants: their slopes are tiny, and so is the first sigma.
pub fn tiny_slopes(random: &mut Random) -> Set {
    let mut set = real(random);
    set.sigmas[0] = 1e-22;
    set.scale = [0., 0., 1., 0., 0., 0., 0., 1e-39, 0., 0., 1., 0.];
    set
}

/// A good set of any kind.
pub fn any(random: &mut Random) -> Set {
    match random.below(20) {
        0..=7 => real(random),
        8 => Set::t(),
        9 | 16 => near_t(random),
        17 => tilted(random),
        18 => every_pixel(),
        10 => scattered(random),
        11 => resized(random),
        12 => thinned(random),
        13 => odd_numbers(random),
        14 => odd_sigmas(random),
        15 => patterned(random),
        _ => real(random),
    }
}

/// A real-looking set whose w1 is tiny and w2 huge, or turned in sign.
fn tilted(random: &mut Random) -> Set {
    let mut set = real(random);
    let far = random.from_to(24, 44) as i32;
    let turned = random.once_in(4);
    for (place, value) in set.spatial.iter_mut().enumerate() {
        let factor = match place % 45 / 9 {
            _ if turned => -1.0,
            0 => power(-far),
            1 => power(far),
            _ => power(-(far / 2)),
        };
        *value *= factor as f32;
    }
    set
}

/// Entries between -1 and 1, sigmas rising.
fn scattered(random: &mut Random) -> Set {
    let mut set = Set::t();
    for place in 4..118 {
        *set.float(place) = random.between(-1.0, 1.0);
    }
    let mut sigma = 0.0;
    for slot in &mut set.sigmas {
        sigma += random.between(0.2, 2.0);
        *slot = sigma;
    }
    set.order = order(random);
    set
}

/// A real-looking set with one part made huge or tiny.
fn resized(random: &mut Random) -> Set {
    let mut set = real(random);
    let (from, to) = random.pick(&[(4, 15), (16, 27), (28, 117), (4, 12), (37, 54), (55, 72)]);
    let far = random.from_to(0, 120) as i32 - 60;
    for place in from..=to {
        let value = set.float(place);
        let grown = *value * power(far) as f32;
        *value = if grown.is_finite() { grown } else { 0.0 };
    }
    set
}

/// A real-looking set with zero, minus zero and subnormal entries.
fn thinned(random: &mut Random) -> Set {
    let mut set = real(random);
    for _ in 0..random.from_to(1, 40) {
        let place = random.from_to(4, 117);
        *set.float(place) = random.pick(&[0.0, -0.0, 1e-45, -1e-45, 1e-39, -3e-40]);
    }
    set
}

/// A real-looking set with reversed or degenerate numbers.
fn odd_numbers(random: &mut Random) -> Set {
    let mut set = real(random);
    for _ in 0..random.from_to(1, 4) {
        let place = random.below(11);
        let value = random.pick(&[
            0.0,
            -0.0,
            1.0,
            -1.0,
            0.5,
            1e-6,
            1e30,
            -1e30,
            1e-45,
            f32::MAX,
        ]);
        set.numbers[place] = value;
    }
    set.numbers[10] = set.numbers[10].abs();
    if random.once_in(8) {
        set.numbers[10] = -0.0;
    }
    if random.once_in(3) {
        set.numbers[7] = set.numbers[6];
    }
    set
}

/// A real-looking set with sigmas that are tiny, huge or neighbours in the format.
fn odd_sigmas(random: &mut Random) -> Set {
    let mut set = real(random);
    match random.below(4) {
        0 => {
            let start = random.pick(&[1e-45f32, 1e-40, 1.0, 1.6, 1e19, 3e38]);
            let bits = start.to_bits();
            set.sigmas = core::array::from_fn(|k| f32::from_bits(bits + k as u32));
        }
        1 => set.sigmas = [1e-20, 1e-3, 1.0, 1e15],
        2 => set.sigmas = [1.6, 2.2, 3.2, 1e20],
        _ => set.sigmas = [1e-45, 1e-30, 2.0, 3e38],
    }
    set
}

/// Finite floats of uniform bits.
fn patterned(random: &mut Random) -> Set {
    let mut set = Set::t();
    for place in 4..FLOATS {
        *set.float(place) = random.finite_pattern();
    }
    let mut sigmas: [u32; 4] = core::array::from_fn(|_| random.from_to(1, 0x7f7f_fff0) as u32);
    sigmas.sort_unstable();
    set.sigmas = core::array::from_fn(|k| f32::from_bits(sigmas[k] + k as u32));
    set.numbers[10] = set.numbers[10].abs();
    set.order = order(random);
    set
}

/// A set damaged in one place so that it is not good.
pub fn damaged(random: &mut Random) -> Set {
    let mut set = any(random);
    match random.below(6) {
        0..=2 => {
            let place = random.below(FLOATS);
            *set.float(place) = random.pick(&[f32::NAN, f32::INFINITY, f32::NEG_INFINITY]);
        }
        3 => {
            let place = random.below(4);
            let other = set.sigmas[(place + 3) % 4];
            set.sigmas[place] = match place {
                0 => random.pick(&[0.0, -0.0, -1.0, -1e-45]),
                _ => random.pick(&[other, other.next_down()]),
            };
        }
        4 => set.numbers[10] = random.pick(&[-1e-45, -1.0, f32::MIN]),
        _ => set.order[random.below(9)] = random.pick(&[9, 10, 255, 128]),
    }
    set
}

/// A set record, perhaps damaged in its length, spare bytes or contents.
pub fn record(random: &mut Random, number: usize) -> Vec<u8> {
    let set = if number % 4 == 1 {
        damaged(random)
    } else {
        any(random)
    };
    let mut record = set.record().to_vec();
    match number % 4 {
        2 => {
            let length = random.pick(&[0, 1, 527, 529, 528 - 4, 1056, 100]);
            record.resize(length, 0);
        }
        3 => record[525 + random.below(3)] = random.from_to(1, 255) as u8,
        _ => {}
    }
    record
}
