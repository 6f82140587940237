//! Corrections in small exact numbers that land where the cubic is as steep, or as high, as at the model's root.

use crate::case::Case;
use crate::random::{Random, power};
use crate::sets::Set;

/// A cubic that is level at `root`, where the model's move ends, and at `root` + 2 `half`. The cap lets the bounded move end at that other
/// level point, where the slopes are equal, or half as far again, where the heights are, or a float beside one of them.
pub fn correction(random: &mut Random) -> Case {
    let lead =
        random.pick(&[1.0f32, -1.0, 3.0, -3.0]) * power(random.from_to(0, 8) as i32 - 4) as f32;
    let half = random.pick(&[0.25f32, -0.25, 0.5, -0.5, 1.0, -1.0]);
    let steps = random.pick(&[0.5f32, 1.0, 2.0]);
    let start = random.from_to(0, 4) as i32 - 2;
    let root = start as f32 + steps * half;
    let cubic = [
        lead,
        -3.0 * lead * (root + half),
        3.0 * lead * root * (root + 2.0 * half),
    ];
    let landing = (steps + random.pick(&[2.0, 3.0])) * half.abs();
    let beside = [landing, landing, landing.next_up(), landing.next_down()];
    let origin = random.pick(&[1.0f32, 0.5, 1.6]);
    let (set, samples) = set_and_samples(random, cubic, origin, beside);
    Case::Correct {
        set,
        samples,
        sigma: origin * power(start) as f32,
        is_max: lead * half > 0.0,
    }
}

/// A set that makes the cubic of samples whose profile the boost accepts, with wide ranges and one of the caps.
fn set_and_samples(
    random: &mut Random,
    cubic: [f32; 3],
    origin: f32,
    caps: [f32; 4],
) -> (Set, [f32; 4]) {
    let mut set = Set::t();
    let sign = random.pick(&[1.0f32, -1.0]);
    let rise = random.pick(&[1.0f32, 2.0, -0.5]);
    set.geometry = [0.0; 12];
    for (row, term) in cubic.into_iter().enumerate() {
        set.geometry[3 * row] = sign * term / rise;
    }
    let boost = random.pick(&[16.0, 32.0, 64.0]);
    let beta = random.pick(&[0.0, 0.5, 1.0]);
    let cap = random.pick(&caps);
    set.numbers = [
        origin, 0.0, -40.0, 40.0, 1e-6, 1e6, beta, boost, 4.0, 8.0, cap,
    ];
    (set, [1.0 + rise, 1.0, 1.0, 1.0].map(|sample| sign * sample))
}
