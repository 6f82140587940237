//! Inner functions on numbers that all but cancel, so that roundings alone decide.

use crate::case::Case;
use crate::random::{Random, power};
use crate::sets::Set;

/// A refinement by set T whose corners all but cancel: whether it is an edge hangs on the order in which they are added.
pub fn cancelling(random: &mut Random) -> Case {
    let is_max = random.once_in(2);
    let side = random.between(0.05, 0.5);
    let mut values = [if is_max { -side } else { side }; 9];
    for corner in [0, 2, 6, 8] {
        values[corner] = random.between(-2.0, 2.0);
    }
    values[4] = 0.0;
    let large = random.between(-4.0, 4.0) * 16777216.0;
    values[random.pick(&[0, 8])] = large;
    values[random.pick(&[2, 6])] = large;
    let polarity = if is_max { 1.0 } else { 0.0 };
    let mut words = vec![9.0, 7.0, 2.0, 1.0, 0.0, polarity, f32::INFINITY];
    for value in values {
        words.extend([0.0, 0.0, 0.0, value]);
    }
    Case::Inner {
        function: "refine_keypoint_2d",
        set: Set::t(),
        words,
    }
}

/// A cubic whose discriminant is exactly 0, over so narrow a band about its inflection that rounding alone orders its values.
pub fn inflected(random: &mut Random) -> Case {
    let lead = random.from_to(1, 31) as f32 * power(-(random.from_to(0, 12) as i32)) as f32;
    let a = if random.once_in(2) { lead } else { -lead };
    let place = random.from_to(2, 8) as f32 * 0.5;
    let half = place * power(-(random.from_to(8, 16) as i32)) as f32 * random.between(0.5, 1.0);
    let polarity = random.below(2) as f32;
    Case::Inner {
        function: "band_extreme",
        set: Set::t(),
        words: vec![
            a,
            -3.0 * a * place,
            3.0 * a * place * place,
            random.pick(&[0.0, -a]),
            place - half,
            place + half,
            polarity,
        ],
    }
}
