//! Odd maps for the soak: maps of every kind, most of them spoilt in one way, with sides at which detection's blocks of rows end in every way.

use crate::case::{Case, Scene};
use crate::families::thresholds;
use crate::maps::{self, Levels};
use crate::random::{Random, power};
use crate::records::SPOT;
use crate::sets::{self, Set};

/// The ways in which maps are spoilt, by their names.
pub const WAYS: [&str; 9] = [
    "unspoilt",
    "resized",
    "faint",
    "few-steps",
    "doubled",
    "lost",
    "patterned",
    "subnormal",
    "flattened",
];

/// Apart from the families' own sources.
const SOURCE: u64 = 1 << 32;
/// The most rows, which the numbers walk through.
pub const ROWS: usize = 600;
/// One number in this many is a step of that walk.
pub const WALK: usize = 4;
const LONGEST: usize = 4096;

/// Rows and cols: each number of rows in turn, a few large maps and a few with long rows or hardly any, small ones most often.
fn sides(random: &mut Random, number: usize) -> (usize, usize) {
    match number % 100 {
        step if step % WALK == 0 => (1 + number / WALK % ROWS, random.from_to(9, 40)),
        1 => (random.from_to(200, ROWS), random.from_to(200, 400)),
        2 => (random.from_to(9, 30), random.from_to(9, LONGEST)),
        3 => (random.from_to(0, 12), random.from_to(0, 12)),
        _ => (random.from_to(9, 60), random.from_to(9, 60)),
    }
}

/// Every pixel brought to one of a few steps of the map's own height.
fn few_steps(random: &mut Random, levels: &mut Levels) {
    let heights = levels.iter().flatten().map(|pixel| pixel.abs());
    let tallest = heights
        .filter(|height| height.is_finite())
        .fold(0.0, f32::max);
    let step = tallest / random.pick(&[1.0, 2.0, 4.0, 16.0]);
    if step > 0.0 {
        spoil(levels, |pixel| (pixel / step).round() * step);
    }
}

/// Two by two pixels alike.
fn double(rows: usize, levels: &mut Levels) {
    for level in levels {
        for place in 0..level.len() {
            let (row, col) = (place % rows, place / rows);
            level[place] = level[col / 2 * 2 * rows + row / 2 * 2];
        }
    }
}

fn spoil(levels: &mut Levels, mut change: impl FnMut(f32) -> f32) {
    for pixel in levels.iter_mut().flatten() {
        *pixel = change(*pixel);
    }
}

/// Other floats in place of one pixel in so many, of which one number is picked.
fn sprinkle(
    random: &mut Random,
    levels: &mut Levels,
    every: &[usize],
    mut other: impl FnMut(&mut Random) -> f32,
) {
    let every = random.pick(every);
    spoil(levels, |pixel| match random.once_in(every) {
        true => other(random),
        false => pixel,
    });
}

/// Lost pixels, and the ends of the format.
const ENDS: [f32; 8] = [
    f32::NAN,
    f32::INFINITY,
    f32::NEG_INFINITY,
    0.0,
    -0.0,
    f32::MAX,
    f32::MIN,
    1e-45,
];

/// A map spoilt in one of the ways.
fn spoilt(random: &mut Random, way: usize, set: &Set, rows: usize, cols: usize) -> Levels {
    let mut levels = maps::any(random, set, rows, cols);
    match WAYS[way] {
        "resized" => maps::resize(random, &mut levels),
        "faint" => {
            let factor = power(-(random.from_to(4, 20) as i32)) as f32;
            spoil(&mut levels, |pixel| pixel * factor);
        }
        "few-steps" => few_steps(random, &mut levels),
        "doubled" => double(rows, &mut levels),
        "lost" => sprinkle(random, &mut levels, &[10, 40, 200], |random| {
            random.pick(&ENDS)
        }),
        "patterned" => sprinkle(random, &mut levels, &[3, 30, 300], Random::pattern),
        "subnormal" => sprinkle(random, &mut levels, &[1, 2, 30], |random| {
            let tiny = f32::from_bits(random.below(64) as u32);
            if random.once_in(2) { tiny } else { -tiny }
        }),
        "flattened" => levels[random.below(4)].fill(0.0),
        _ => {}
    }
    levels
}

/// Thresholds as the families have them, half of the windows without 0; then peaks of the map's own height or without an end, and zeros and infinities as
/// ends of the window.
fn odd_thresholds(random: &mut Random, set: &Set, levels: &Levels) -> [f32; 5] {
    let mut thresholds = thresholds(random, set);
    let [first, second, _, last] = set.sigmas;
    if random.once_in(2) {
        (thresholds[3], thresholds[4]) = random.pick(&[(first, last), (second, last)]);
    }
    if random.once_in(8) {
        let ends = [0.0, -0.0, f32::INFINITY, f32::NEG_INFINITY, -1.0, first];
        thresholds[random.from_to(3, 4)] = random.pick(&ends);
    }
    match random.below(12) {
        0 => thresholds[0] = random.pick(&[f32::INFINITY, f32::NEG_INFINITY, -1e9, -0.0]),
        1 | 2 if !levels[1].is_empty() => {
            let height = levels[1][random.below(levels[1].len())].abs();
            thresholds[0] = height * random.between(0.0, 1.0);
        }
        _ => {}
    }
    thresholds
}

/// The number of its way, and a detection; half of the sets are given ones.
pub fn detection(seed: u64, number: usize, given: &[Set]) -> (usize, Case) {
    let random = &mut Random::new(seed, SOURCE, number as u64);
    let way = random.below(WAYS.len());
    let (rows, cols) = sides(random, number);
    let set = match random.below(16) {
        0..=7 => given[random.below(given.len())].clone(),
        8 => sets::tiny_slopes(random),
        _ => sets::any(random),
    };
    let levels = spoilt(random, way, &set, rows, cols);
    let thresholds = odd_thresholds(random, &set, &levels);
    let scene = Scene {
        set,
        thresholds,
        rows,
        cols,
        octave: random.below(6),
        levels,
    };
    let room = SPOT * (rows * cols).min(20_000);
    let case = Case::Detect {
        scene,
        room,
        fill: 0xa5,
    };
    (way, case)
}

/// The same detection under thresholds that a spot of its list just passes: a window of the spot's sigma alone, and the float below its peak.
pub fn tightened(case: &Case, spot: &[u8]) -> Case {
    let float = |place: usize| f32::from_le_bytes(core::array::from_fn(|k| spot[place + k]));
    let (sigma, peak) = (float(8), float(12));
    let mut case = case.clone();
    if let Case::Detect { scene, .. } = &mut case {
        let is_max = spot[38] == 1;
        scene.thresholds[0] = if is_max { peak } else { -peak }.next_down();
        scene.thresholds[3..].fill(sigma);
    }
    case
}
