//! The families of cases: each case made from its family, a seed and a number.

use crate::case::{Case, Scene};
use crate::causes;
use crate::deltas;
use crate::desks;
use crate::feeds;
use crate::homes;
use crate::levels;
use crate::limits;
use crate::maps;
use crate::mirrored;
use crate::old;
use crate::overshoot;
use crate::partners;
use crate::random::{Random, power};
use crate::records::{self, Form, PRESENT, SPOT};
use crate::rounding;
use crate::scenes;
use crate::sets::{self, Set};
use crate::stores;
use crate::turning;
use crate::words::{self, FUNCTIONS};

/// The families of cases. `inner` counts through the inner functions.
pub const FAMILIES: [&str; 37] = [
    "list",
    "detect",
    "join",
    "sized",
    "correct",
    "octaves",
    "downsample",
    "reader",
    "inner",
    "wide",
    "turning",
    "overshoot",
    "records",
    "floats",
    "steep",
    "mirrored",
    "cancelling",
    "inflected",
    "widest",
    "blanks",
    "limits",
    "homes",
    "levels",
    "kernels",
    "blurs",
    "raw",
    "causes",
    "statistics",
    "feeds",
    "starts",
    "forged",
    "scenes",
    "deltas",
    "old",
    "desks",
    "stores",
    "partners",
];

/// The case of a family with the given seed and number.
pub fn expand(family: &str, seed: u64, number: usize) -> Case {
    let index = FAMILIES.iter().position(|&name| name == family);
    let index = index.unwrap_or_else(|| panic!("no family {family}"));
    let random = &mut Random::new(seed, index as u64, number as u64);
    match family {
        "list" => list(random, number),
        "detect" => detect(random, number),
        "join" => join(random, number, PRESENT),
        "sized" => Case::Sized {
            scene: lively(random),
        },
        "correct" => correct(random, number),
        "octaves" => octaves(random, number),
        "downsample" => downsample(random, number),
        "reader" => Case::Reader {
            bytes: sets::record(random, number),
        },
        "wide" => wide(random, number),
        "widest" if number == 0 => widest(random),
        "widest" if number == 1 => levels::widest(random),
        "widest" => scenes::widest(random),
        "blanks" => limits::blank(random, number),
        "limits" => limits::odd(random, number),
        "homes" => homes::join(random, number, PRESENT),
        "levels" => levels::made(random, number),
        "kernels" => levels::kernel(random, number),
        "blurs" => levels::blur(random, number),
        "raw" => levels::chain(random, number),
        "causes" => causes::correction(random, number),
        "statistics" => causes::statistic(random),
        "feeds" => feeds::run(random, number),
        "starts" => feeds::start(random, number),
        "forged" => feeds::forged(random, number),
        "scenes" => scenes::tiled(random, number),
        "overshoot" => overshoot::correction(random),
        "mirrored" => mirrored::correction(random),
        "cancelling" => rounding::cancelling(random),
        "inflected" => rounding::inflected(random),
        "records" => damaged_records(random, PRESENT),
        "deltas" => deltas::join(random, number),
        "old" => old::join(random, number),
        "desks" => desks::history(random, number),
        "stores" => stores::history(random, number),
        "partners" => partners::offered(random, number),
        "floats" => {
            let (function, words) = words::many(random, number);
            Case::Inner {
                function,
                set: Set::t(),
                words,
            }
        }
        "steep" => Case::List {
            input: steep(random).input(),
        },
        "turning" => {
            let (function, set, words) = turning::words(random, number);
            Case::Inner {
                function,
                set,
                words,
            }
        }
        _ => {
            let function = FUNCTIONS[number % FUNCTIONS.len()];
            let (set, words) = words::words(random, function, number / FUNCTIONS.len());
            Case::Inner {
                function,
                set,
                words,
            }
        }
    }
}

/// Thresholds: loose, usual, with windows of every kind, now and then an odd float.
pub fn thresholds(random: &mut Random, set: &Set) -> [f32; 5] {
    let [first, .., last] = set.sigmas;
    let usual = [
        (first, last),
        (first, last),
        (first * 1.189_207, last * 0.917_004),
        (0.0, f32::INFINITY),
        (-1.0, 1e9),
        (f32::NEG_INFINITY, f32::INFINITY),
    ];
    let rare = [(-0.0, 0.0), (set.sigmas[1], set.sigmas[2]), (last, first)];
    let (low, high) = if random.once_in(8) {
        random.pick(&rare)
    } else {
        random.pick(&usual)
    };
    let small = random.between(0.0, 0.05);
    let mut thresholds = [
        random.pick(&[0.0, 0.0, 0.0, small, -1.0, 1e-6]),
        random.pick(&[0.0, 0.0, 0.0, small, -1.0, 1e-6]),
        random.pick(&[10.0, 12.1, 5.0, f32::INFINITY, 1e6, 4.5]),
        low,
        high,
    ];
    if random.once_in(6) {
        let odd = random.any();
        thresholds[random.below(5)] = odd;
    }
    thresholds
}

/// The thresholds with a number for each NaN.
pub(crate) fn without_nan(thresholds: [f32; 5]) -> [f32; 5] {
    thresholds.map(|t| if t.is_nan() { 0.5 } else { t })
}

/// A side from 0 to 60, most often near or above the smallest that is judged.
fn side(random: &mut Random) -> usize {
    match random.below(10) {
        0 => random.below(8),
        1 | 2 => random.from_to(8, 10),
        3..=6 => random.from_to(9, 24),
        _ => random.from_to(20, 60),
    }
}

/// A scene of any kind.
pub fn scene(random: &mut Random) -> Scene {
    let (rows, cols) = (side(random), side(random));
    let set = sets::any(random);
    under(random, set, rows, cols)
}

/// A map of these sides under a set, with thresholds and an octave.
pub(crate) fn under(random: &mut Random, set: Set, rows: usize, cols: usize) -> Scene {
    let levels = maps::any(random, &set, rows, cols);
    let thresholds = thresholds(random, &set);
    Scene {
        set,
        thresholds,
        rows,
        cols,
        octave: random.below(6),
        levels,
    }
}

/// A scene with a real-looking or simple set and sides that are judged.
pub fn lively(random: &mut Random) -> Scene {
    let (rows, cols) = (random.from_to(9, 30), random.from_to(9, 30));
    let set = match random.below(4) {
        0 => sets::near_t(random),
        _ => sets::real(random),
    };
    under(random, set, rows, cols)
}

/// Document 01's case P9 and its near relations, by number.
pub fn named(number: usize) -> Option<Scene> {
    let mut scene = Scene {
        set: Set::t(),
        thresholds: [1.0, 1.0, 10.0, 1.902_731_4, 4.149_886_6],
        rows: 9,
        cols: 10,
        octave: 0,
        levels: maps::m(),
    };
    let place = |row: usize, col: usize| col * 9 + row;
    let weight = |scene: &mut Scene, row: usize, value: f32| {
        for block in [0, 45] {
            scene.set.spatial[block + 27 + 4] = 0.0;
            scene.set.spatial[block + 9 * row + 4] = value;
        }
    };
    match number {
        0 => {}
        1 => scene.levels[0][place(2, 4)] = f32::NAN,
        2 => scene.levels[0][place(2, 2)] = f32::NAN,
        3 => weight(&mut scene, 3, 0.3),
        4 => weight(&mut scene, 3, 0.3f32.next_up()),
        5 => weight(&mut scene, 3, -0.3),
        6 => weight(&mut scene, 3, (-0.3f32).next_down()),
        7 => weight(&mut scene, 4, 0.3),
        8 => weight(&mut scene, 4, 0.3f32.next_up()),
        9 => weight(&mut scene, 4, -0.3),
        10 => weight(&mut scene, 4, (-0.3f32).next_down()),
        11 => scene.thresholds[0] = 4.0,
        12 => scene.thresholds[0] = 4.0f32.next_down(),
        13 => scene.thresholds[3] = 2.0,
        14 => scene.thresholds[3] = 2.0f32.next_up(),
        15 => scene.thresholds[4] = 2.0,
        16 => scene.thresholds[4] = 2.0f32.next_down(),
        17 => scene.thresholds[1] = 2.0,
        18 => scene.thresholds[1] = 2.0f32.next_down(),
        19 => scene.thresholds = [f32::NAN; 5],
        _ => return None,
    }
    Some(scene)
}

/// A map of these sides in which a window that holds 0 lists every judged pixel, if it is not too long.
pub(crate) fn full_of(random: &mut Random, rows: usize, cols: usize) -> Scene {
    Scene {
        set: sets::every_pixel(),
        thresholds: [random.pick(&[0.0, -1.0]), 0.0, f32::INFINITY, -1.0, 9.0],
        rows,
        cols,
        octave: random.below(6),
        levels: maps::every_pixel(random, rows, cols),
    }
}

/// The same on sides that the list program takes.
fn full(random: &mut Random) -> Scene {
    let (rows, cols) = random.pick(&[(60, 60), (60, 60), (48, 49), (9, 60), (30, 20)]);
    full_of(random, rows, cols)
}

/// About as many spots as the list program prints, by the number: 1,299, 1,300 or 1,301 of them, or 1,295, 1,296 or 1,302.
fn full_to_the_limit(random: &mut Random, number: usize) -> Scene {
    let sides = [(33, 60), (58, 34), (50, 39), (44, 44)];
    let (rows, cols) = sides[number % sides.len()];
    let mut scene = full_of(random, rows, cols);
    scene.thresholds[0] = -1.0;
    // Row 2, col 3 is near no judged pixel but the first.
    if number / sides.len() % 2 == 0 {
        scene.levels[random.below(4)][3 * rows + 2] = f32::NAN;
    }
    scene
}

/// The faults of number `number`: four that any two can hold at once, and none most often.
fn faults(number: usize) -> [bool; 4] {
    let chosen = if number % 3 == 0 { number / 3 % 16 } else { 0 };
    core::array::from_fn(|fault| chosen >> fault & 1 == 1)
}

fn list(random: &mut Random, number: usize) -> Case {
    if let Some(scene) = named(number) {
        return Case::List {
            input: scene.input(),
        };
    }
    if number % 40 == 39 {
        let scene = match number / 40 % 3 {
            2 => full_to_the_limit(random, number / 120),
            _ => full(random),
        };
        return Case::List {
            input: scene.input(),
        };
    }
    let mut scene = scene(random);
    let [long, size, octave, bad] = if number % 5 == 0 {
        faults(number / 5 * 3)
    } else {
        [false; 4]
    };
    if octave {
        scene.octave = random.pick(&[6, 7, 255, 256, 65536, u32::MAX as usize]);
    }
    if bad {
        scene.set = sets::damaged(random);
    }
    let input = damaged_input(random, &scene, [long, size, bad]);
    Case::List { input }
}

/// A scene's input with a wrong length, side or spare byte of the set.
pub(crate) fn damaged_input(
    random: &mut Random,
    scene: &Scene,
    [long, size, bad]: [bool; 3],
) -> Vec<u8> {
    let mut input = scene.input();
    if bad && random.once_in(4) {
        input[..525].copy_from_slice(&Set::t().record()[..525]);
        input[525 + random.below(3)] = random.from_to(1, 255) as u8;
    }
    if size {
        let place = 548 + 4 * random.below(2);
        let side = random.pick(&[61u32, 62, 4096, 4097, u32::MAX, 0x8000_0000]);
        input[place..place + 4].copy_from_slice(&side.to_le_bytes());
    }
    if long {
        let length = input.len();
        let cut = random.below(560);
        let wrong = [
            length + 1,
            length + 4,
            length - 1,
            length - 4,
            559,
            548,
            0,
            cut,
        ];
        input.resize(random.pick(&wrong), 0);
    }
    input
}

/// Rooms for a list, in bytes.
pub(crate) const ROOMS: [usize; 11] = [
    0,
    SPOT - 1,
    SPOT,
    SPOT + 1,
    2 * SPOT - 1,
    2 * SPOT,
    2 * SPOT + 1,
    10 * SPOT,
    100 * SPOT,
    1000 * SPOT,
    2704 * SPOT,
];

fn detect(random: &mut Random, number: usize) -> Case {
    let mut scene = if number % 2 == 0 {
        lively(random)
    } else {
        scene(random)
    };
    damage(random, &mut scene, faults(number));
    let room = random.pick(&ROOMS);
    Case::Detect {
        scene,
        room,
        fill: random.word() as u8,
    }
}

/// A scene with sides too long, a level too long or short, an octave above 5, a set that is not good.
pub(crate) fn damage(random: &mut Random, scene: &mut Scene, faults: [bool; 4]) {
    let [size, level, octave, bad] = faults;
    if size {
        let side = random.pick(&[4097, 4098, 65536, usize::MAX, 1 << 63]);
        if random.once_in(2) {
            scene.rows = side;
        } else {
            scene.cols = side;
        }
        if random.once_in(2) && side <= 65536 {
            scene.rows = side;
            scene.cols = random.below(2);
            scene.levels = core::array::from_fn(|_| vec![0.0; scene.rows * scene.cols]);
        }
    }
    if level {
        let which = random.below(4);
        let length = scene.levels[which].len();
        let wrong = [length + 1, length.max(1) - 1, length + 7, 2 * length + 1];
        let wrong = random.pick(&wrong);
        scene.levels[which].resize(wrong, 0.0);
    }
    if octave {
        scene.octave = random.pick(&[6, 7, 255, usize::MAX]);
    }
    if bad {
        scene.set = sets::damaged(random);
    }
}

/// The join of a list of a form, its faults by the number.
pub(crate) fn join(random: &mut Random, number: usize, form: Form) -> Case {
    let [size, bad_set, records, room] = faults(number);
    let (mut rows, mut cols) = (random.from_to(1, 60), random.from_to(1, 60));
    if random.once_in(6) {
        (rows, cols) = random.pick(&[
            (1, 1),
            (4096, 4096),
            (4096, 1),
            (1, 4096),
            (9, 10),
            (3, 2731),
        ]);
    }
    if records && random.once_in(8) {
        (rows, cols) = random.pick(&[(0, 10), (10, 0), (0, 0)]);
    }
    let mut set = if random.once_in(2) {
        sets::real(random)
    } else {
        sets::any(random)
    };
    let list = records::list(random, &set.sigmas, (rows, cols), form, records);
    if size {
        let side = random.pick(&[4097, 65536, usize::MAX]);
        (rows, cols) = random.pick(&[(side, cols), (rows, side), (side, side)]);
    }
    if bad_set {
        set = sets::damaged(random);
    }
    let (needed, sized) = (form.needed(&list), form.sized);
    let given = match room {
        true => needed.saturating_sub(random.pick(&[1, 1, sized - 1, sized, sized + 1])),
        false => needed + random.pick(&[0, 0, 1, sized / 4, sized, sized + 8]),
    };
    form.join(set, (rows, cols), list, given, random.word() as u8)
}

/// A join of a list of a form with a damaged record.
pub(crate) fn damaged_records(random: &mut Random, form: Form) -> Case {
    let (rows, cols) = random.pick(&[(9, 10), (60, 60), (1, 1), (4096, 4096), (30, 7), (1, 4096)]);
    let set = sets::real(random);
    let list = records::damaged(random, &set.sigmas, (rows, cols), form);
    let room = form.needed(&list);
    form.join(set, (rows, cols), list, room, 0x77)
}

/// A map in which every judged pixel is a spot at sigma 0, its curvature near or above the largest float.
fn steep(random: &mut Random) -> Scene {
    let mut scene = full(random);
    let far = power(random.from_to(118, 124) as i32) as f32;
    scene.set.scale = scene
        .set
        .scale
        .map(|entry| if entry == 0.0 { entry } else { entry * far });
    scene.set.scale[11] = 1.0;
    scene
}

/// The correction of number `number`, before any knob is turned.
pub fn correct(random: &mut Random, number: usize) -> Case {
    let mut set = match random.below(8) {
        0..=4 => sets::real(random),
        5 => sets::near_t(random),
        _ => sets::any(random),
    };
    if number % 16 == 15 {
        set = sets::damaged(random);
    }
    let samples = match random.below(12) {
        0 => random.four(),
        1 => words::level_line(random, &mut set)[..]
            .try_into()
            .unwrap_or([1.0; 4]),
        _ => records::samples(random),
    };
    let sigma = match random.below(8) {
        0 => random.any(),
        1 => random.pick(&set.sigmas),
        _ => random.between(f64::from(set.sigmas[0]), f64::from(set.sigmas[3])),
    };
    let tall = samples[1] > samples[3];
    let is_max = if random.once_in(6) { !tall } else { tall };
    Case::Correct {
        set,
        samples,
        sigma,
        is_max,
    }
}

fn octaves(random: &mut Random, number: usize) -> Case {
    const EDGES: [usize; 7] = [0, 10, 64, 128, 256, 512, 1024];
    let near = EDGES[number % 7] + random.below(3);
    let side = near.saturating_sub(1);
    let other = random.pick(&[
        side,
        side + 1,
        4096,
        1 << 40,
        usize::MAX,
        side.saturating_sub(1),
    ]);
    match random.below(3) {
        0 => Case::Octaves {
            rows: side,
            cols: other,
        },
        1 => Case::Octaves {
            rows: other,
            cols: side,
        },
        _ => Case::Octaves {
            rows: random.word() as usize,
            cols: side,
        },
    }
}

fn downsample(random: &mut Random, number: usize) -> Case {
    let (mut rows, mut cols) = (random.below(12), random.below(12));
    if random.once_in(12) {
        (rows, cols) = random.pick(&[(4096, 2), (2, 4096), (4096, 0), (1, 4096), (4095, 3)]);
    }
    let mut level: Vec<f32> = (0..rows * cols).map(|_| random.any()).collect();
    let needed = if rows < 2 || cols < 2 {
        0
    } else {
        (rows / 2) * (cols / 2)
    };
    let [size, length, short, _] = faults(number);
    if size {
        let side = random.pick(&[4097, 65536, usize::MAX]);
        (rows, cols) = random.pick(&[(side, cols), (rows, side), (side, side)]);
    }
    if length {
        let wrong = [level.len() + 1, level.len().max(1) - 1, level.len() + 9];
        level.resize(random.pick(&wrong), 1.0);
    }
    let room = match short {
        true => needed.saturating_sub(1),
        false => needed + random.pick(&[0, 0, 1, 5]),
    };
    Case::Downsample {
        rows,
        cols,
        level,
        room,
        fill: random.between(-9.0, 9.0),
    }
}

/// A few maps with a long side.
fn wide(random: &mut Random, number: usize) -> Case {
    let sides = [
        (4096, 9),
        (9, 4096),
        (10, 4096),
        (300, 300),
        (4096, 16),
        (1024, 64),
        (8, 4096),
    ];
    let (rows, cols) = sides[number % sides.len()];
    let set = sets::real(random);
    Case::Detect {
        scene: under(random, set, rows, cols),
        room: SPOT * 6000,
        fill: 7,
    }
}

/// A lattice of spots on the longest sides there are.
fn widest(random: &mut Random) -> Case {
    Case::Detect {
        scene: latticed(random, 4096, 4096),
        room: SPOT * 100_000,
        fill: 7,
    }
}

/// A lattice of spots on these sides.
pub(crate) fn latticed(random: &mut Random, rows: usize, cols: usize) -> Scene {
    let set = sets::real(random);
    let levels = maps::lattice(random, &set, rows, cols);
    let [low, .., high] = set.sigmas;
    Scene {
        set,
        thresholds: [0.0, 0.0, 10.0, low, high],
        rows,
        cols,
        octave: random.below(6),
        levels,
    }
}
