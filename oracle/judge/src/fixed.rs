//! The published text as it stands, byte for byte, for the few sets that are real constants in it.

use crate::entries::write_old_spots;
use crate::fixed_builds as builds;
use crate::shims::math_compat;
use crate::{Answer, Logs, Map, Pass, Set, entries, fixed_sets};

/// The fixed sets' names; the other functions take an index into them.
pub const NAMES: [&str; 5] = fixed_sets::NAMES;

pub fn set(index: usize) -> Set {
    fixed_sets::by_index(index)
}

macro_rules! of_build {
    ($index:expr, $module:ident, $function:ident($($argument:expr),*)) => {
        match $index {
            0 => builds::t::$module::$function($($argument),*),
            1 => builds::half_octaves::$module::$function($($argument),*),
            2 => builds::weighted::$module::$function($($argument),*),
            3 => builds::degenerate::$module::$function($($argument),*),
            4 => builds::repeated_order::$module::$function($($argument),*),
            _ => panic!("there is no such fixed set"),
        }
    };
}

/// Detection by one of the passes; this text tells no displacement, and its records are former ones.
pub fn detect(index: usize, pass: Pass, map: Map, out: &mut [u8]) -> Answer {
    match entries::detection_refusal(set(index).good(), map) {
        Some(number) => Answer::Refused { number, index: 0 },
        None => write_old_spots(&of_build!(index, offered, detect(pass, map)).1, out),
    }
}

/// The seconds of a pass alone, and how many spots it found.
pub fn time(index: usize, pass: Pass, map: Map) -> (f64, usize) {
    let (seconds, spots) = of_build!(index, offered, detect(pass, map));
    (seconds, spots.len())
}

/// The correction; why a size is missing this text doesn't say.
pub fn correct(
    logs: Logs,
    index: usize,
    samples: [f32; 4],
    sigma: f32,
    is_max: bool,
) -> Result<f32, u32> {
    let before = math_compat::choose(logs);
    let size = of_build!(index, offered, correct(&samples, sigma, is_max));
    math_compat::choose(before);
    size.ok_or(7)
}

/// How far the refinement by these cubics moves a spot of this sigma and polarity, if it accepts it.
pub fn displacement(
    index: usize,
    sigma: f32,
    is_max: bool,
    cubics: &[[f32; 4]; 9],
    ratio: f32,
) -> Option<[f32; 2]> {
    of_build!(index, offered, displacement(sigma, is_max, cubics, ratio))
}

pub fn octave_count(rows: usize, cols: usize) -> usize {
    of_build!(0, offered, octave_count(rows, cols))
}

/// The four levels of a raw map of rows by cols by the blur as it stands, its largest radius 14.
pub fn levels(
    logs: Logs,
    index: usize,
    base: (usize, usize, &[f32]),
    octave: usize,
) -> [Vec<f32>; 4] {
    let (rows, cols, _) = base;
    let mut out = core::array::from_fn(|_| vec![0.0; rows * cols]);
    let before = math_compat::choose(logs);
    of_build!(index, blurred, levels(base, octave, [true; 4], &mut out));
    math_compat::choose(before);
    out
}
