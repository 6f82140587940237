//! Levels made of raw maps, the kernels that make them, blurs by given kernels, and the chain from a raw map to its spots.

use crate::case::{Case, Raw, Scene};
use crate::families;
use crate::maps;
use crate::random::{Random, power};
use crate::sets::{self, Set};

/// The inner functions of the levels. `gaussian` takes a sigma, `kernel` an octave, the third sigma and the target; both answer the radius and 17 taps.
/// `blur` takes two radii each with 17 taps, rows, cols, two rooms and the raw pixels, and answers whether it was done and both buffers.
pub const FUNCTIONS: [&str; 3] = ["gaussian", "kernel", "blur"];

/// The largest radius, and how many taps a kernel has room for.
pub const WIDEST: usize = 16;
pub const TAPS: usize = WIDEST + 1;

/// What a blur's buffers hold before it.
pub const FILL: f32 = -7.25;

/// Radii by radii, 0 to 16 both.
pub const PAIRS: usize = TAPS * TAPS;

/// Sides around those at which a loop over a line turns, and around the largest radius.
const SIDES: [usize; 14] = [0, 1, 2, 3, 7, 8, 9, 15, 16, 17, 31, 32, 33, 40];

/// Long lines, both ways.
const LONG: [(usize, usize); 8] = [
    (4096, 2),
    (2, 4096),
    (4096, 1),
    (1, 4096),
    (1000, 21),
    (21, 1000),
    (260, 70),
    (65, 129),
];

/// One word out of a few, or of any kind.
fn odd(random: &mut Random) -> f32 {
    match random.below(8) {
        0 => f32::NAN,
        1 => f32::INFINITY,
        2 => f32::NEG_INFINITY,
        3 => random.pick(&[f32::MAX, f32::MIN, 1e38, -3e38]),
        4 => random.pick(&[1e-45, -1e-45, 1e-39, -f32::MIN_POSITIVE]),
        5 => random.pick(&[-0.0, 0.0]),
        6 => random.pattern(),
        _ => random.any(),
    }
}

/// A raw map: noise, whole numbers, spikes, one steady float, zeros of both signs, numbers that overflow in a sum or underflow in a product, floats of
/// any kind; now and then with lost pixels in it.
pub fn pixels(random: &mut Random, rows: usize, cols: usize) -> Vec<f32> {
    let size = rows * cols;
    let mut map: Vec<f32> = match random.below(12) {
        0..=2 => {
            let far = power(random.from_to(0, 40) as i32 - 20);
            (0..size).map(|_| random.between(-far, far)).collect()
        }
        3 => (0..size).map(|_| random.below(9) as f32 - 4.0).collect(),
        4 => {
            let mut map = vec![random.pick(&[0.0, -0.0, 1.0]); size];
            for _ in 0..random.from_to(1, 3).min(size) {
                map[random.below(size)] = random.any();
            }
            map
        }
        5 => vec![random.any(); size],
        6 => (0..size).map(|_| random.pick(&[0.0, -0.0])).collect(),
        7 => (0..size).map(|_| random.between(-3.4e38, 3.4e38)).collect(),
        8 => {
            let low = power(-(random.from_to(120, 149) as i32));
            (0..size).map(|_| random.between(-low, low)).collect()
        }
        9 => (0..size).map(|_| random.pattern()).collect(),
        10 => (0..size).map(|_| random.any()).collect(),
        _ => {
            let (down, right) = (random.between(-1.0, 1.0), random.between(-1.0, 1.0));
            let ramp = |at: usize| (at % rows) as f32 * down + (at / rows) as f32 * right;
            (0..size).map(ramp).collect()
        }
    };
    if size > 0 && random.once_in(3) {
        for _ in 0..random.pick(&[1, 1, 1, 2, 6]) {
            let place = at(random, rows, cols);
            map[place] = odd(random);
        }
    }
    map
}

/// A pixel: a corner, on a side, or any.
fn at(random: &mut Random, rows: usize, cols: usize) -> usize {
    let ends = |random: &mut Random, side: usize| random.pick(&[0, side - 1]);
    let (row, col) = match random.below(4) {
        0 => (ends(random, rows), ends(random, cols)),
        1 => (ends(random, rows), random.below(cols)),
        2 => (random.below(rows), ends(random, cols)),
        _ => (random.below(rows), random.below(cols)),
    };
    col * rows + row
}

/// A float, or one of the four nearest to it, by a number.
fn beside(value: f32, number: usize) -> f32 {
    match number % 5 {
        0 => value,
        1 => value.next_up(),
        2 => value.next_down(),
        3 => value.next_up().next_up(),
        _ => value.next_down().next_down(),
    }
}

/// A good set by its sigmas: the half octaves from the root of 2, set T, and four that give radii of every kind, infinite ones among them.
fn set(random: &mut Random) -> Set {
    let mut set = sets::any(random);
    match random.below(8) {
        0 => return Set::t(),
        1 => {
            let root = core::f32::consts::SQRT_2;
            set.sigmas = [root, 2.0, 2.0 * root, 4.0];
        }
        2..=4 => set.sigmas = rising(random, |random| random.between(0.05, 6.5)),
        5 => {
            set.sigmas = rising(random, |random| {
                power(random.from_to(0, 16) as i32 - 10) as f32
            })
        }
        6 => {
            set.sigmas = rising(random, |random| {
                random.pick(&[
                    1e-45, 1e-30, 1e-20, 0.5, 1.0, 3.0, 1e19, 1.9e19, 3e19, 4e19, 3e38,
                ])
            });
        }
        _ => {}
    }
    set
}

/// Four floats above 0, each above the one before.
fn rising(random: &mut Random, mut sigma: impl FnMut(&mut Random) -> f32) -> [f32; 4] {
    let mut bits: [u32; 4] = core::array::from_fn(|_| sigma(random).to_bits());
    bits.sort_unstable();
    core::array::from_fn(|k| f32::from_bits(bits[k] + k as u32))
}

/// A set's record that is refused: damaged, too long or short, or with a spare byte set.
fn refused(random: &mut Random) -> Vec<u8> {
    let kind = random.from_to(1, 3);
    sets::record(random, kind)
}

/// Sides by the number: each of `SIDES` with each, some long, then any to 48.
fn sides(random: &mut Random, number: usize) -> (usize, usize) {
    match number % 4 {
        _ if number % 64 == 63 => LONG[number / 64 % LONG.len()],
        0 => (random.below(49), random.below(49)),
        _ => {
            let pair = number - number / 4 - 1;
            let count = SIDES.len();
            (SIDES[pair % count], SIDES[pair / count % count])
        }
    }
}

/// Levels: every third number has some of five faults, each choice of them in turn; every fifteenth a short room alone.
pub fn made(random: &mut Random, number: usize) -> Case {
    let chosen = match number % 3 {
        2 => number / 3 % 32,
        1 if number % 5 == 0 => 16,
        _ => 0,
    };
    let [long, length, octave, bad, short]: [bool; 5] =
        core::array::from_fn(|fault| chosen >> fault & 1 == 1);
    let (rows, cols) = sides(random, number);
    let mut raw = Raw {
        rows,
        cols,
        octave: random.pick(&[0, 0, 0, 1, 1, 2, 3, 4, 5]),
        pixels: pixels(random, rows, cols),
    };
    let needed = rows * cols;
    let longer = [0, 0, 0, 1, 2, 9, 33];
    let mut rooms: [usize; 4] = core::array::from_fn(|_| needed + random.pick(&longer));
    if random.once_in(2) {
        rooms = [needed; 4];
    }
    if short {
        for _ in 0..random.from_to(1, 4) {
            let any = random.below(needed.max(1));
            let room = random.pick(&[needed.max(1) - 1, 0, any]);
            rooms[random.below(4)] = room;
        }
    }
    if long {
        let side = random.pick(&[4097, 4098, 65536, 1 << 32, 1 << 63, usize::MAX]);
        (raw.rows, raw.cols) = random.pick(&[(side, cols), (rows, side), (side, side)]);
    }
    if length {
        let wrong = [needed + 1, needed.max(1) - 1, needed + 7, 2 * needed + 1, 0];
        raw.pixels.resize(random.pick(&wrong), 1.0);
    }
    if octave {
        raw.octave = random.pick(&[6, 7, 8, 255, 256, usize::MAX]);
    }
    let record = match bad {
        true => refused(random),
        false => set(random).record().to_vec(),
    };
    Case::Levels {
        record,
        raw,
        rooms,
        fill: random.between(-9.0, 9.0),
    }
}

/// Levels of a raw map of noise on the longest sides there are, under set T, with one float of room more than there is need of.
pub fn widest(random: &mut Random) -> Case {
    let (rows, cols) = (4096, 4096);
    let pixels = (0..rows * cols)
        .map(|_| random.between(-1.0, 1.0))
        .collect();
    let octave = random.below(6);
    Case::Levels {
        record: Set::t().record().to_vec(),
        raw: Raw {
            rows,
            cols,
            octave,
            pixels,
        },
        rooms: [rows * cols + 1; 4],
        fill: 7.0,
    }
}

/// Sigmas at which a test of `gaussian` turns, and the ends of the format.
const ENDS: [f32; 20] = [
    0.0,
    -0.0,
    f32::EPSILON,
    -f32::EPSILON,
    1e-45,
    f32::MIN_POSITIVE,
    1e-30,
    1e-4,
    0.1,
    0.01,
    -1.0,
    f32::NAN,
    -f32::NAN,
    f32::INFINITY,
    f32::NEG_INFINITY,
    f32::MAX,
    1e19,
    1.844_674_3e19,
    5.5,
    1e30,
];

/// A sigma: by the number around k / 3 and around the ends, then of any kind.
fn sigma(random: &mut Random, number: usize) -> f32 {
    let turns = 5 * (WIDEST + 3);
    match number {
        _ if number < turns => beside((number / 5) as f32 / 3.0, number),
        _ if number < turns + 5 * ENDS.len() => beside(ENDS[(number - turns) / 5], number - turns),
        _ => match random.below(8) {
            0 => odd(random),
            1 => random.between(0.0, 0.4),
            2 => random.pick(&[0.1, 1.0, 0.5]) * power(-(random.below(30) as i32)) as f32,
            3 => beside(random.below(20) as f32 / 3.0, random.below(5)),
            _ => random.between(0.0, 6.0),
        },
    }
}

/// An octave, the third sigma and a target: of a set, or such that the incremental sigma lies beside k / 3 or the floor, or any.
fn target(random: &mut Random, number: usize) -> [f32; 3] {
    let octave = [0.0, 1.0, 0.0, 2.0, 5.0, 6.0, 16_777_216.0][number % 7];
    let set = set(random);
    let third = match random.below(8) {
        0 => odd(random),
        1 => random.any(),
        _ => set.sigmas[2],
    };
    let base = if octave == 0.0 { 0.5 } else { third / 2.0 };
    let step = match random.below(6) {
        0 => 0.1,
        1 => 0.0,
        _ => random.below(18) as f32 / 3.0,
    };
    let target = match random.below(8) {
        0 => odd(random),
        1 => random.any(),
        2 => set.sigmas[random.below(4)],
        3 => random.between(0.0, 7.0),
        _ => beside((base * base + step * step).sqrt(), random.below(5)),
    };
    [octave, third, target]
}

/// One kernel: by its sigma, or by an octave's base and a target.
pub fn kernel(random: &mut Random, number: usize) -> Case {
    let (function, words) = match number % 2 {
        0 => ("gaussian", vec![sigma(random, number / 2)]),
        _ => ("kernel", target(random, number / 2).to_vec()),
    };
    Case::Inner {
        function,
        set: Set::t(),
        words,
    }
}

/// Seventeen taps: falling, of any kind, odd ones, zeros, halves of powers of two; past the radius zero, or what must not be read.
fn taps(random: &mut Random, radius: usize) -> [f32; TAPS] {
    let kind = random.below(6);
    let mut taps = core::array::from_fn(|tap| match kind {
        0 | 1 => random.between(0.0, 1.0) / (1 + tap) as f32,
        2 => random.any(),
        3 => odd(random),
        4 => random.pick(&[0.0, -0.0, 1.0, -1.0, 0.5]),
        _ => random.between(-1.0, 1.0),
    });
    if random.once_in(2) {
        for tap in taps.iter_mut().skip(radius + 1) {
            *tap = 0.0;
        }
    }
    taps
}

/// Two kernels on one raw map: by the number each radius with each; every 31st radius or room is one that is refused.
pub fn blur(random: &mut Random, number: usize) -> Case {
    let mut radii = [number % TAPS, number / TAPS % TAPS];
    let (rows, cols) = match number / PAIRS % 2 {
        0 => (random.pick(&SIDES), random.pick(&SIDES)),
        _ => (random.below(41), random.below(41)),
    };
    let mut rooms = [0, 1].map(|_| rows * cols + random.pick(&[0, 0, 0, 1, 17]));
    if number % 31 == 30 {
        match random.below(2) {
            0 => radii[random.below(2)] = random.pick(&[17, 18, 255]),
            _ => rooms[random.below(2)] = random.below((rows * cols).max(1)),
        }
    }
    let mut words = Vec::new();
    for radius in radii {
        words.push(radius as f32);
        words.extend(taps(random, radius));
    }
    words.extend([rows, cols, rooms[0], rooms[1]].map(|whole| whole as f32));
    words.extend(pixels(random, rows, cols));
    Case::Inner {
        function: "blur",
        set: Set::t(),
        words,
    }
}

/// A raw map on which spots are likely, with thresholds that let them pass; every fourth has lost pixels.
pub fn chain(random: &mut Random, number: usize) -> Case {
    let (rows, cols) = (random.from_to(9, 48), random.from_to(9, 48));
    let set = match random.below(8) {
        0 => set(random),
        _ => sets::real(random),
    };
    let [first, .., last] = set.sigmas;
    let grain = random.pick(&[0.0, 0.01, 0.1]);
    let mut pixels: Vec<f32> = (0..rows * cols)
        .map(|_| random.between(-grain, grain))
        .collect();
    let middle = f64::from(set.sigmas[1].min(9.0)) * f64::from(set.sigmas[2].min(9.0));
    for _ in 0..1 + rows * cols / random.from_to(50, 150) {
        let (y, x) = (random.unit() * rows as f64, random.unit() * cols as f64);
        let wide = middle * (0.5 + 2.5 * random.unit());
        let tall = if random.once_in(2) { 2.0 } else { -2.0 } * (0.5 + random.unit());
        let squash = 0.8 + 0.4 * random.unit();
        maps::add_bump(&mut pixels, rows, cols, (y, x, squash), wide, tall);
    }
    if number % 4 == 3 {
        for _ in 0..random.pick(&[1, 1, 2]) {
            let lost = random.pick(&[f32::NAN, f32::INFINITY, f32::NEG_INFINITY, f32::MAX]);
            pixels[random.below(rows * cols)] = lost;
        }
    }
    let thresholds = match random.below(8) {
        0 => families::thresholds(random, &set),
        _ => [0.0, 0.0, 12.1, first, last],
    };
    let scene = Scene {
        set,
        thresholds,
        rows,
        cols,
        octave: random.pick(&[0, 0, 0, 1, 2, 5]),
        levels: Default::default(),
    };
    Case::FromRaw { scene, pixels }
}
