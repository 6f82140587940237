//! Corrections and statistics of which many are missing, each for every cause that there is.

use crate::case::Case;
use crate::random::{Random, power};
use crate::records;
use crate::sets::{self, Set};

/// The statistic's name among the inner functions.
pub const STATISTIC: &str = "profile_compatibility_statistic";

/// A number or one of the two floats beside it.
fn beside(random: &mut Random, value: f32) -> f32 {
    random.pick(&[value, value, value.next_up(), value.next_down()])
}

/// Two corrections by number: document 01's P12, and one whose move is no number.
fn named(number: usize) -> Option<Case> {
    let mut set = Set::t();
    let samples = match number {
        0 => [-1.0, 4.0, 0.0, 0.0],
        1 => {
            for place in [1, 6, 7] {
                set.numbers[place] = 0.0;
            }
            [1e-45, -3e38, 0.0, 0.0]
        }
        _ => return None,
    };
    Some(Case::Correct {
        set,
        samples,
        sigma: 2.0,
        is_max: false,
    })
}

/// The correction of number `number`, under a good set.
pub fn correction(random: &mut Random, number: usize) -> Case {
    if let Some(case) = named(number) {
        return case;
    }
    let mut set = match random.below(4) {
        0 => sets::real(random),
        1 => sets::near_t(random),
        _ => Set::t(),
    };
    ranges(random, &mut set);
    let mut samples = records::samples(random);
    let mut sigma = random.between(
        f64::from(set.sigmas[0]) * 0.7,
        f64::from(set.sigmas[3]) * 1.4,
    );
    let mut is_max = random.once_in(2);
    let kind = random.below(8);
    if kind < 4 {
        set.geometry = Set::t().geometry;
    }
    match kind {
        0 => samples = at_epsilon(random, &mut set),
        1 => (samples, sigma, is_max) = at_range(random, &mut set),
        2 => (samples, sigma, is_max) = huge(random),
        3 => (samples, is_max) = (no_move(random, &mut set), false),
        4 => sigma = random.pick(&[0.0, -0.0, -1.0, 1e-45, 1e-38, f32::MAX, f32::INFINITY]),
        5 => set.numbers[0] = random.pick(&[0.0, -0.0, -1.0, 1e-45, 1e38, f32::MAX]),
        6 => samples[random.below(4)] = random.turning(),
        _ => {}
    }
    Case::Correct {
        set,
        samples,
        sigma,
        is_max,
    }
}

/// Ranges as they are, or wide, or narrow, or such that no size lies in them.
fn ranges(random: &mut Random, set: &mut Set) {
    let origin = set.numbers[0];
    let (t, sigma) = match random.below(4) {
        0 => return,
        1 => ((-200.0, 200.0), (0.0, f32::MAX)),
        2 => ((0.25, 1.0), (origin * 1.2, origin * 1.9)),
        _ => random.pick(&[
            ((1.0, -1.0), (0.0, f32::MAX)),
            ((-200.0, 200.0), (2.0, 1.0)),
        ]),
    };
    (set.numbers[2], set.numbers[3]) = t;
    (set.numbers[4], set.numbers[5]) = sigma;
}

/// Under set T's cubic, whose curvature is twice the first sample: a curvature at the epsilon or a float beside it, of either sign.
fn at_epsilon(random: &mut Random, set: &mut Set) -> [f32; 4] {
    let epsilon = random.pick(&[0.5, 0.5, 0.0, 1e-6, 1e-45, -0.25]);
    set.numbers[1] = epsilon;
    let half = random.pick(&[0.5, -0.5]) * epsilon;
    [
        beside(random, half),
        random.between(-0.2, 0.2),
        random.between(-1.0, 1.0),
        0.0,
    ]
}

/// Under set T's cubic: a spot that stands where it is, its T or its sigma at an end of its range or a float beside it.
fn at_range(random: &mut Random, set: &mut Set) -> ([f32; 4], f32, bool) {
    set.numbers[..6].copy_from_slice(&[1.0, 0.5, -200.0, 200.0, 0.0, f32::MAX]);
    let whole = random.from_to(0, 8) as i32 - 4;
    let sigma = power(whole) as f32;
    let end = random.from_to(2, 5);
    let reached = if end < 4 { whole as f32 } else { sigma };
    set.numbers[end] = beside(random, reached);
    let bend = random.pick(&[1.0f32, -1.0, 0.3, 0.25]);
    let slope = -2.0 * bend * whole as f32;
    ([bend, slope, 0.0, 0.0], sigma, random.once_in(2))
}

/// Under set T's cubic: a curvature of the polarity asked for and a slope, either of which may overflow.
fn huge(random: &mut Random) -> ([f32; 4], f32, bool) {
    let size = power(random.from_to(118, 127) as i32) as f32;
    let samples = core::array::from_fn(|_| random.between(-2.0, 2.0) * size);
    let sigma = power(random.from_to(0, 200) as i32 - 100) as f32;
    (samples, sigma, samples[0] < samples[3])
}

/// Under set T's cubic: a minimum with a curvature so small that the raw step overflows, most often under a beta and a boost of 0.
fn no_move(random: &mut Random, set: &mut Set) -> [f32; 4] {
    set.numbers[1] = 0.0;
    set.numbers[6] = random.pick(&[0.0, 0.0, 0.5]);
    set.numbers[7] = set.numbers[6];
    [random.pick(&[1e-45, 3e-39, 1e-30]), -3e38, 0.0, 0.0]
}

/// A statistic under a good set.
pub fn statistic(random: &mut Random) -> Case {
    let mut set = match random.below(3) {
        0 => sets::real(random),
        _ => Set::t(),
    };
    if random.once_in(3) {
        let far = random.from_to(0, 140) as i32 - 74;
        set.sigmas = set.sigmas.map(|sigma| sigma * power(far) as f32);
    }
    let mut samples = line(random, &set);
    let place = random.below(4);
    match random.below(8) {
        0 => {
            samples[place] = random.pick(&[
                0.0,
                -0.0,
                f32::NAN,
                f32::INFINITY,
                f32::NEG_INFINITY,
                -samples[place],
            ]);
        }
        1 => {
            let odd = random.pick(&[1e-45f32, 1e-38, f32::MAX]);
            samples[place] = odd.copysign(samples[0]);
        }
        2 => samples[place] = ends(random, set.sigmas[place]).copysign(samples[0]),
        3 => {
            set.sigmas = random.pick(&[
                [1.0, 2.0, 3.0, 1e20],
                [1e19, 1.1e19, 1.3e19, 1.8e19],
                [1e-23, 1e-22, 1.0, 2.0],
                [1e-30, 1e-20, 1e-10, 1.0],
                [1e-20, 2e-20, 3e-20, 4e-20],
                [1.6, 1.7, 1.8, 1.3e19],
            ]);
            samples = line(random, &set);
        }
        4 => samples[place] = beside(random, samples[place]),
        _ => {}
    }
    Case::Inner {
        function: STATISTIC,
        set,
        words: samples.to_vec(),
    }
}

/// Samples of one sign whose line rises, falls, is level, or goes through 0.
fn line(random: &mut Random, set: &Set) -> [f32; 4] {
    let sign = random.pick(&[1.0, -1.0]);
    let size = match random.below(3) {
        0 => power(random.from_to(0, 240) as i32 - 120),
        _ => 1.0,
    };
    let middle = f64::from(set.sigmas[1]) * f64::from(set.sigmas[1]);
    let own = middle * (0.1 + 4.0 * random.unit());
    let grain = random.pick(&[0.0, 0.0, 0.01, 0.4]);
    let kind = random.below(6);
    set.sigmas.map(|sigma| {
        let square = f64::from(sigma) * f64::from(sigma);
        let under = match kind {
            0 => 1.0,
            1 => square,
            2 => 1.0 / square,
            _ => square + own,
        };
        let shake = 1.0 + grain * (random.unit() - 0.5);
        (sign * size * shake * square / (under * under)) as f32
    })
}

/// A sample at which the quotient of this sigma's square overflows, or vanishes, or nearly.
fn ends(random: &mut Random, sigma: f32) -> f32 {
    let square = f64::from(sigma * sigma);
    let end = random.pick(&[f64::from(f32::MAX), power(-149), power(-150)]);
    beside(random, (square / end) as f32)
}
