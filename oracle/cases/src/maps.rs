//! Maps of every kind: noise, blobs, ties, spikes, lost pixels, overflow, subnormals, every pixel a spot.

use crate::random::{Random, power};
use crate::sets::Set;

/// Four levels by columns.
pub type Levels = [Vec<f32>; 4];

/// The 21 places a pixel's judgement reads, and the four corners just outside, as rows and cols off.
pub fn near_places() -> Vec<(isize, isize)> {
    let mut places = Vec::new();
    for row in -3isize..=3 {
        for col in -3isize..=3 {
            if row.abs().max(col.abs()) <= 2 || (row == 0 || col == 0) {
                places.push((row, col));
            }
        }
    }
    places
}

fn field(rows: usize, cols: usize, mut value: impl FnMut(usize, usize) -> f32) -> Vec<f32> {
    let mut out = Vec::with_capacity(rows * cols);
    for col in 0..cols {
        for row in 0..rows {
            out.push(value(row, col));
        }
    }
    out
}

/// Independent noise in each level.
fn noise(random: &mut Random, rows: usize, cols: usize) -> Levels {
    let size = power(random.from_to(0, 24) as i32 - 14);
    core::array::from_fn(|_| field(rows, cols, |_, _| random.between(-size, size)))
}

/// Small whole numbers, so that ties are common.
fn ties(random: &mut Random, rows: usize, cols: usize) -> Levels {
    let few = random.from_to(1, 3);
    let unit = power(random.from_to(0, 6) as i32 - 3) as f32;
    core::array::from_fn(|_| {
        field(rows, cols, |_, _| {
            (random.from_to(0, 2 * few) as f32 - few as f32) * unit
        })
    })
}

/// One steady value in each level.
fn flat(random: &mut Random, rows: usize, cols: usize) -> Levels {
    core::array::from_fn(|_| vec![random.any(); rows * cols])
}

/// Zero but for a few pixels.
fn spikes(random: &mut Random, rows: usize, cols: usize) -> Levels {
    let ground = random.pick(&[0.0, 0.0, -0.0, 0.5]);
    let mut levels: Levels = core::array::from_fn(|_| vec![ground; rows * cols]);
    if rows * cols == 0 {
        return levels;
    }
    for _ in 0..random.from_to(1, 2 + rows * cols / 12) {
        let place = random.below(rows * cols);
        for level in &mut levels {
            level[place] = random.pick(&[0.25, -0.25, 0.0, 0.5, -0.5, 1.0, -1.0, 0.125]);
        }
    }
    levels
}

/// Round bumps seen at the four sigmas, with some noise.
fn blobs(random: &mut Random, set: &Set, rows: usize, cols: usize) -> Levels {
    let grain = random.pick(&[0.0, 1e-4, 1e-2]);
    let squares = squares(set);
    let mut levels: Levels =
        core::array::from_fn(|_| field(rows, cols, |_, _| random.between(-grain, grain)));
    for _ in 0..(1 + rows * cols / random.from_to(25, 120)) {
        let at = (random.unit() * rows as f64, random.unit() * cols as f64);
        add_blob(random, &squares, &mut levels, (rows, cols), at);
    }
    levels
}

/// Round bumps at these pixels or beside them, seen at the four sigmas, and nothing else.
pub(crate) fn bumped(
    random: &mut Random,
    set: &Set,
    (rows, cols): (usize, usize),
    places: &[(usize, usize)],
) -> Levels {
    let squares = squares(set);
    let mut levels: Levels = core::array::from_fn(|_| vec![0.0; rows * cols]);
    for &(row, col) in places {
        let at = (
            row as f64 + random.unit() - 0.5,
            col as f64 + random.unit() - 0.5,
        );
        add_blob(random, &squares, &mut levels, (rows, cols), at);
    }
    levels
}

/// The sigmas' squares, none above 400.
fn squares(set: &Set) -> [f64; 4] {
    set.sigmas.map(|s| (f64::from(s) * f64::from(s)).min(400.0))
}

/// Adds a round bump of any kind as it is seen at the four sigmas.
fn add_blob(
    random: &mut Random,
    squares: &[f64; 4],
    levels: &mut Levels,
    (rows, cols): (usize, usize),
    (y, x): (f64, f64),
) {
    let own = squares[1] * (0.2 + 2.0 * random.unit());
    let tall = if random.once_in(2) { 1.0 } else { -1.0 } * (0.2 + random.unit());
    let squash = 0.6 + 0.8 * random.unit();
    for (level, square) in levels.iter_mut().zip(squares) {
        add_bump(
            level,
            rows,
            cols,
            (y, x, squash),
            own + square,
            tall * own / (own + square),
        );
    }
}

/// Adds a round bump of a height, wide as a variance.
pub(crate) fn add_bump(
    level: &mut [f32],
    rows: usize,
    cols: usize,
    at: (f64, f64, f64),
    wide: f64,
    tall: f64,
) {
    let (y, x, squash) = at;
    let reach = 9.0;
    let first = |centre: f64| (centre - reach).max(0.0) as usize;
    let last = |centre: f64, side: usize| ((centre + reach) as usize + 1).min(side);
    for col in first(x)..last(x, cols) {
        for row in first(y)..last(y, rows) {
            let (dy, dx) = (row as f64 - y, (col as f64 - x) * squash);
            let under = 1.0 + (dy * dy + dx * dx) / (3.0 * wide);
            level[col * rows + row] += (tall / (under * under * under)) as f32;
        }
    }
}

/// Heights over the four levels that put an extremum, or one of each polarity, between the outer two.
const PROFILES: [[f64; 4]; 10] = [
    [0.0, 1.0, -1.0, 0.0],
    [0.2, 1.0, -1.0, -0.2],
    [0.0, -1.0, 1.0, 0.0],
    [0.2, 1.0, 0.8, 0.1],
    [0.5, 0.9, 1.0, 0.6],
    [-0.5, 1.0, 0.3, -0.4],
    [1.0, 2.0, 0.0, 0.0],
    [0.7, 1.0, 0.9, 0.5],
    [-1.0, 4.0, 0.0, 0.0],
    [0.1, 0.2, 0.9, 0.3],
];

/// The same for set T's cubic, whose coefficients are differences of samples.
const PLAIN_PROFILES: [[f64; 4]; 6] = [
    [-1.0, 4.0, 0.0, 0.0],
    [-1.0, 6.0, 0.5, 0.0],
    [-0.5, 2.0, -0.5, 0.25],
    [-0.25, 1.5, 1.0, 0.0],
    [-1.0, 5.0, -2.0, 0.5],
    [-2.0, 7.0, 4.0, -1.0],
];

/// One pattern in all levels, times a profile: noise, or small whole numbers.
fn profiled(random: &mut Random, set: &Set, rows: usize, cols: usize) -> Levels {
    let size = power(random.from_to(0, 12) as i32 - 8);
    let whole = random.once_in(3);
    let pattern = field(rows, cols, |_, _| match whole {
        true => (random.from_to(0, 16) as f32 - 8.0) * size as f32,
        false => random.between(-size, size),
    });
    through_levels(random, set, &pattern, size)
}

/// Spikes on a lattice in all levels, times a profile: most of them are spots.
pub fn lattice(random: &mut Random, set: &Set, rows: usize, cols: usize) -> Levels {
    let size = power(random.from_to(0, 12) as i32 - 6);
    let (down, right) = (random.from_to(2, 4), random.from_to(2, 4));
    let one_sign = random.once_in(2);
    let slope = f64::from(random.between(0.0, 0.2));
    let pattern = field(rows, cols, |row, col| {
        let on = row % down == 0 && col % right == 0;
        let tall = if on {
            random.between(0.5, 1.0)
        } else {
            random.between(-slope, slope)
        };
        let tall = if one_sign || random.once_in(2) {
            tall
        } else {
            -tall
        };
        tall * size as f32
    });
    through_levels(random, set, &pattern, size)
}

/// Long ridges that rise and fall a little along their length, now and then huge.
fn ridges(random: &mut Random, set: &Set, rows: usize, cols: usize) -> Levels {
    let size = if random.once_in(2) {
        1.0
    } else {
        power(random.from_to(58, 66) as i32)
    };
    let swell = random.between(0.001, 0.6);
    let upright = random.once_in(2);
    let pattern = field(rows, cols, |row, col| {
        let (across, along) = if upright { (row, col) } else { (col, row) };
        let height = [0.0, 0.3, 1.0, 0.3][across % 4];
        let swollen = 1.0 + swell * [0.0, 0.5, 1.0, 0.5][along % 4];
        height * swollen * size as f32
    });
    through_levels(random, set, &pattern, size)
}

/// What a pattern is multiplied by in each level, by a profile.
fn factors(random: &mut Random, set: &Set) -> [f64; 4] {
    let plain = set.sigmas == [1.0, 2.0, 3.0, 4.0] && !random.once_in(4);
    let profile = if plain {
        random.pick(&PLAIN_PROFILES)
    } else {
        random.pick(&PROFILES)
    };
    core::array::from_fn(|level| {
        let sigma = f64::from(set.sigmas[level]);
        profile[level] / (sigma * sigma)
    })
}

/// Zero but for spikes at these pixels, each with smaller ones beside it, in all levels times a profile.
pub(crate) fn spiked(
    random: &mut Random,
    set: &Set,
    (rows, cols): (usize, usize),
    places: &[(usize, usize)],
) -> Levels {
    let factors = factors(random, set);
    let mut levels: Levels = core::array::from_fn(|_| vec![0.0; rows * cols]);
    let slope = random.pick(&[0.0, 0.1, 0.4]);
    for &(row, col) in places {
        let sign = random.pick(&[1.0, -1.0]);
        for place in 0..9 {
            let (row, col) = (row + place / 3, col + place % 3);
            let tall = match place {
                4 => random.between(0.5, 1.0),
                _ => random.between(-0.2, 1.0) * slope,
            };
            if (1..=rows).contains(&row) && (1..=cols).contains(&col) {
                let pixel = (col - 1) * rows + row - 1;
                for (level, factor) in levels.iter_mut().zip(factors) {
                    level[pixel] += (f64::from(tall * sign) * factor) as f32;
                }
            }
        }
    }
    levels
}

/// A pattern in each level by a profile, with some noise.
fn through_levels(random: &mut Random, set: &Set, pattern: &[f32], size: f64) -> Levels {
    let factors = factors(random, set);
    let grain = random.pick(&[0.0, 0.0, 1e-3, 0.1]);
    core::array::from_fn(|level| {
        let factor = factors[level];
        let shaken = |&value: &f32| {
            (f64::from(value) * factor) as f32 + random.between(-grain * size, grain * size)
        };
        pattern.iter().map(shaken).collect()
    })
}

/// A sharp chequered pattern with slowly changing height.
fn chequered(random: &mut Random, rows: usize, cols: usize) -> Levels {
    let step = random.from_to(2, 3);
    let heights: [f32; 4] = core::array::from_fn(|_| random.between(-1.0, 1.0));
    let slope = random.between(0.0, 0.01);
    core::array::from_fn(|level| {
        field(rows, cols, |row, col| {
            let on = row % step == 0 && col % step == 0;
            let height = heights[level] * (1.0 + slope * (row + 2 * col) as f32);
            if on { height } else { 0.0 }
        })
    })
}

/// The map under which, with its set, every judged pixel is a spot at sigma 0; now and then each peak is a zero.
pub fn every_pixel(random: &mut Random, rows: usize, cols: usize) -> Levels {
    let mut levels = steady(random, rows, cols);
    if random.once_in(2) {
        for level in [0, 3] {
            levels[level] = field(rows, cols, |_, _| random.pick(&[0.0, -0.0]));
        }
    }
    levels
}

fn steady(random: &mut Random, rows: usize, cols: usize) -> Levels {
    let (middle_row, middle_col) = (rows as f64 / 2.0, cols as f64 / 2.0);
    let sign = if random.once_in(2) { 1.0 } else { -1.0 };
    let tall = f64::from(random.between(1.0, 4.0));
    let away = |row: usize, col: usize| (row as f64 - middle_row, col as f64 - middle_col);
    let bowl = |row: usize, col: usize| {
        let (y, x) = away(row, col);
        y * y + x * x
    };
    let deep = |row: usize, col: usize| {
        let (y, x) = away(row, col);
        -(y * y * y * y + x * x * x * x) / 64.0
    };
    [
        field(rows, cols, |row, col| (sign * tall * bowl(row, col)) as f32),
        field(rows, cols, |row, col| (sign * tall * bowl(row, col)) as f32),
        field(rows, cols, |row, col| (sign * deep(row, col)) as f32),
        vec![0.0; rows * cols],
    ]
}

/// A map in which spots are likely.
fn rich(random: &mut Random, set: &Set, rows: usize, cols: usize) -> Levels {
    match random.below(12) {
        0 => noise(random, rows, cols),
        1..=3 => blobs(random, set, rows, cols),
        4 | 5 => profiled(random, set, rows, cols),
        6..=9 => lattice(random, set, rows, cols),
        10 => ridges(random, set, rows, cols),
        _ => spikes(random, rows, cols),
    }
}

/// A map of any kind, before anything is lost.
fn sound(random: &mut Random, set: &Set, rows: usize, cols: usize) -> Levels {
    match random.below(16) {
        0..=11 => rich(random, set, rows, cols),
        12 | 13 => ties(random, rows, cols),
        14 => chequered(random, rows, cols),
        _ => match random.below(4) {
            0 => flat(random, rows, cols),
            1 => core::array::from_fn(|_| field(rows, cols, |_, _| random.pattern())),
            2 => core::array::from_fn(|_| field(rows, cols, |_, _| random.any())),
            _ => every_pixel(random, rows, cols),
        },
    }
}

/// Every pixel multiplied by a power of two, up to overflow and down to subnormals.
pub(crate) fn resize(random: &mut Random, levels: &mut Levels) {
    let shift = match random.below(4) {
        0 => random.from_to(118, 128) as i32,
        1 => -(random.from_to(125, 150) as i32),
        2 => random.from_to(50, 75) as i32,
        _ => -(random.from_to(8, 40) as i32),
    };
    let factor = power(shift);
    let grow = |value: &mut f32| *value = (f64::from(*value) * factor) as f32;
    levels
        .iter_mut()
        .for_each(|level| level.iter_mut().for_each(grow));
}

/// Lost pixels: near one chosen pixel, at one of its places or just outside, in one level.
pub(crate) fn lose(
    random: &mut Random,
    (rows, cols): (usize, usize),
    levels: &mut Levels,
    mut chosen: impl FnMut(&mut Random) -> (usize, usize),
) {
    let places = near_places();
    for _ in 0..random.pick(&[1, 1, 2, 5, 20]) {
        let centre = chosen(random);
        let (down, right) = random.pick(&places);
        let row = (centre.0 as isize + down).clamp(0, rows as isize - 1) as usize;
        let col = (centre.1 as isize + right).clamp(0, cols as isize - 1) as usize;
        let lost = random.pick(&[
            f32::NAN,
            f32::INFINITY,
            f32::NEG_INFINITY,
            f32::MAX,
            f32::MIN,
        ]);
        levels[random.below(4)][col * rows + row] = lost;
    }
}

/// A map of any kind, perhaps resized, perhaps with lost pixels.
pub fn any(random: &mut Random, set: &Set, rows: usize, cols: usize) -> Levels {
    let mut levels = sound(random, set, rows, cols);
    if random.once_in(8) {
        resize(random, &mut levels);
    }
    if rows * cols > 0 && random.once_in(4) {
        let any = |random: &mut Random| (random.below(rows), random.below(cols));
        lose(random, (rows, cols), &mut levels, any);
    }
    levels
}

/// Document 01's map M.
pub fn m() -> Levels {
    let mut levels: Levels = core::array::from_fn(|_| vec![0.0; 90]);
    levels[0][40] = 0.25;
    levels[1][40] = -0.25;
    levels
}
