//! Corrections whose step goes past the stationary point, or whose numbers are so small that they round to equal ones.

use crate::case::Case;
use crate::random::{Random, power};
use crate::sets::{self, Set};

/// One such correction: a strong blend, a wide cap, wide ranges, a profile that the boost accepts.
pub fn correction(random: &mut Random) -> Case {
    let mut set = sets::real(random);
    let shrink = if random.once_in(3) {
        power(-(random.from_to(8, 20) as i32)) as f32
    } else {
        1.0
    };
    set.sigmas = set.sigmas.map(|sigma| sigma * shrink);
    strengthen(random, &mut set, shrink);
    let (samples, sign) = samples(random, &set, shrink);
    let sigma = random.between(
        f64::from(set.sigmas[0]) * 0.5,
        f64::from(set.sigmas[3]) * 1.5,
    );
    let is_max = if random.once_in(5) {
        sign < 0.0
    } else {
        sign > 0.0
    };
    Case::Correct {
        set,
        samples,
        sigma,
        is_max,
    }
}

/// A strong blend, a wide cap and wide ranges, for sigmas shrunk by a factor.
fn strengthen(random: &mut Random, set: &mut Set, shrink: f32) {
    let origin = set.numbers[0] * shrink;
    let lower = random.between(0.001, 0.2);
    set.numbers = [
        origin,
        if random.once_in(2) {
            0.0
        } else {
            set.numbers[1] * shrink
        },
        random.pick(&[-40.0, -4.0, -1.0]),
        random.pick(&[40.0, 4.0, 2.5]),
        origin * random.pick(&[1e-6, 0.25]),
        origin * random.pick(&[1e6, 8.0]),
        random.pick(&[0.5, 1.5, 3.0, -1.0, 0.1]),
        random.pick(&[1.0, 2.0, 4.0, 8.0, -2.0]),
        lower,
        lower * random.between(1.1, 9.0),
        random.pick(&[1.0, 4.0, 16.0, 0.5]),
    ];
}

/// Samples along the profile of a Gaussian with some noise, tiny where the sigmas are shrunk, and their sign.
fn samples(random: &mut Random, set: &Set, shrink: f32) -> ([f32; 4], f64) {
    let size = match shrink {
        1.0 => 1.0,
        _ => power(-(random.from_to(118, 146) as i32)),
    };
    let sign = random.pick(&[1.0, -1.0]);
    let own = f64::from(set.sigmas[1]) * f64::from(set.sigmas[1]) * (0.1 + 4.0 * random.unit());
    let grain = random.pick(&[0.0, 0.02, 0.3, 0.8]);
    let tops: [f64; 4] = core::array::from_fn(|level| {
        let square = f64::from(set.sigmas[level]) * f64::from(set.sigmas[level]);
        let under = (square + own) * (square + own);
        own * square / under * (1.0 + grain * (random.unit() - 0.5))
    });
    (tops.map(|top| (sign * size * top) as f32), sign)
}
