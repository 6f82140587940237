//! The inner functions in one uniform form: a name, a set and a list of f32 words.

use crate::random::{Random, power};
use crate::records;
use crate::sets::{self, Set};

/// The inner functions, in the order of their numbers.
pub const FUNCTIONS: [&str; 24] = [
    "compute_poly_coeffs",
    "geometry_poly_coeffs",
    "horner",
    "neighbor_scale_band",
    "band_extreme",
    "owns_scale_extremum",
    "scale_envelope",
    "polynomial_extrema",
    "get_q_scale_index",
    "fit_spatial_quadratic",
    "refine_keypoint_2d",
    "profile_compatibility_statistic",
    "profile_beta_from_statistic",
    "profile_blend_beta",
    "profile_bounded_move",
    "profile_model_move",
    "log2",
    "exp",
    "sqrt",
    "min",
    "max",
    "clamp",
    "abs",
    "is_finite",
];

/// The words of case `number` of a function, with its set.
pub fn words(random: &mut Random, function: &str, number: usize) -> (Set, Vec<f32>) {
    let mut set = match random.below(5) {
        0 => Set::t(),
        1 => sets::near_t(random),
        _ => sets::any(random),
    };
    let words = match function {
        "compute_poly_coeffs" | "geometry_poly_coeffs" | "scale_envelope" => {
            envelope_samples(random)
        }
        "horner" => five(random),
        "neighbor_scale_band" | "get_q_scale_index" => vec![near_sigma(random, &set)],
        "band_extreme" => band(random, &set),
        "owns_scale_extremum" => {
            let mut words = random.four().to_vec();
            tie(random, &mut words);
            words.push(flag(number));
            words
        }
        "polynomial_extrema" => extrema(random, &set),
        "fit_spatial_quadratic" => {
            let mut words = vec![1.0 + flag(number)];
            words.extend(patch(random));
            words
        }
        "refine_keypoint_2d" => refinement(random, &mut set, number),
        "profile_compatibility_statistic" | "profile_blend_beta" => profile(random, &mut set),
        "profile_beta_from_statistic" => statistic(random, &set),
        "profile_bounded_move" => vec![unit_or_any(random), unit_or_any(random)],
        "profile_model_move" => model(random, &set),
        "clamp" => vec![random.any(), random.any(), random.any()],
        "min" | "max" => {
            let mut words = vec![random.any(), random.any()];
            tie(random, &mut words);
            words
        }
        "exp" => vec![match random.below(3) {
            0 => random.between(-8.0, 8.0),
            1 => random.between(-110.0, 95.0),
            _ => random.any(),
        }],
        _ => vec![random.any()],
    };
    (set, words)
}

/// The float helpers of one word, which a case may ask for many words at once.
const HELPERS: [&str; 5] = ["log2", "exp", "sqrt", "abs", "is_finite"];

/// A helper and 64 words for it.
pub fn many(random: &mut Random, number: usize) -> (&'static str, Vec<f32>) {
    let function = HELPERS[number % 8 % HELPERS.len()];
    let words = (0..64).map(|_| match (function, random.below(3)) {
        ("exp", 0 | 1) => random.between(-8.0, 8.0),
        ("log2", 0 | 1) => random.between(0.25, 16.0),
        (_, 1) => random.any(),
        _ => random.pattern(),
    });
    (function, words.collect())
}

fn flag(number: usize) -> f32 {
    (number % 2) as f32
}

fn unit_or_any(random: &mut Random) -> f32 {
    if random.once_in(2) {
        random.between(-2.0, 2.0)
    } else {
        random.any()
    }
}

/// Makes two words equal, or equal but for the zero's sign, now and then.
fn tie(random: &mut Random, words: &mut [f32]) {
    let (one, other) = (random.below(words.len()), random.below(words.len()));
    match random.below(4) {
        0 => words[one] = words[other],
        1 => words[one] = words[other].next_up(),
        2 => {
            words[one] = 0.0;
            words[other] = -0.0;
        }
        _ => {}
    }
}

fn five(random: &mut Random) -> Vec<f32> {
    let mut words = random.four().to_vec();
    words.push(random.any());
    words
}

fn envelope_samples(random: &mut Random) -> Vec<f32> {
    let mut words = match random.below(3) {
        0 => records::samples(random).to_vec(),
        _ => random.four().to_vec(),
    };
    if random.once_in(4) {
        tie(random, &mut words);
    }
    words
}

/// A float near a sigma, its band's ends, or any.
fn near_sigma(random: &mut Random, set: &Set) -> f32 {
    let sigma = random.pick(&set.sigmas);
    let edge = random.pick(&[
        sigma,
        sigma * core::f32::consts::SQRT_2,
        sigma / core::f32::consts::SQRT_2,
    ]);
    match random.below(6) {
        0 => random.any(),
        1 => edge.next_up(),
        2 => edge.next_down(),
        3 => edge,
        _ => random.between(
            f64::from(set.sigmas[0]) * 0.5,
            f64::from(set.sigmas[3]) * 1.5,
        ),
    }
}

/// A cubic with a chosen leading term: ordinary, nearly quadratic, at the 1e-6 edges, or any floats.
fn cubic(random: &mut Random) -> [f32; 4] {
    let mut coeffs = random.four();
    let edges = [
        1e-6f32,
        1e-6f32.next_up(),
        1e-6f32.next_down(),
        0.0,
        -1e-6,
        (-1e-6f32).next_down(),
    ];
    match random.below(6) {
        0 => coeffs[0] = random.pick(&edges),
        1 => {
            coeffs[0] = 0.0;
            coeffs[1] = random.pick(&edges);
        }
        2 => {
            coeffs[0] = random.pick(&[1e-7, 0.0, 1e-6, -1e-7]);
            coeffs[1] = random.between(-1.0, 1.0);
        }
        3 => stationary_in(random, &mut coeffs),
        _ => {}
    }
    coeffs
}

/// Two stationary points at chosen places.
fn stationary_in(random: &mut Random, coeffs: &mut [f32; 4]) {
    let (one, other) = (random.between(0.5, 5.0), random.between(0.5, 5.0));
    let lead = random.between(-1.0, 1.0);
    coeffs[0] = lead;
    coeffs[1] = -1.5 * lead * (one + other);
    coeffs[2] = 3.0 * lead * one * other;
}

fn band(random: &mut Random, set: &Set) -> Vec<f32> {
    let mut words = cubic(random).to_vec();
    let (low, high) = match random.below(5) {
        0 => (random.any(), random.any()),
        1 => (set.sigmas[0], 0.0),
        2 => (set.sigmas[0], set.sigmas[3]),
        _ => {
            let low = random.between(0.5, 4.0);
            (low, low * random.between(1.0, 2.0))
        }
    };
    if random.once_in(6) {
        words[random.below(4)] = random.turning();
    }
    words.extend([low, high, flag(random.below(2))]);
    words
}

/// A cubic with its end samples, most often near what it gives there.
fn extrema(random: &mut Random, set: &Set) -> Vec<f32> {
    let coeffs = cubic(random);
    let [a, b, c, d] = coeffs;
    let at = |s: f32| ((a * s + b) * s + c) * s + d;
    let mut words = coeffs.to_vec();
    match random.below(3) {
        0 => words.extend([random.any(), random.any()]),
        1 => words.extend([at(set.sigmas[0]), at(set.sigmas[3])]),
        _ => words.extend([random.between(-1.0, 1.0), random.between(-1.0, 1.0)]),
    }
    words
}

/// Nine samples, often with zeros of both signs.
fn patch(random: &mut Random) -> [f32; 9] {
    let kind = random.below(4);
    core::array::from_fn(|_| match kind {
        0 => random.any(),
        1 => random.pick(&[0.0, -0.0, 0.0, 1.0]),
        _ => random.between(-2.0, 2.0),
    })
}

/// The words of a refinement: x, y, sigma, peak, scale index, polarity, ratio limit, then 36 coefficients.
fn refinement(random: &mut Random, set: &mut Set, number: usize) -> Vec<f32> {
    let is_max = flag(number);
    let sigma = if random.once_in(8) {
        0.0
    } else {
        near_sigma(random, set)
    };
    let ratio = random.pick(&[10.0, 4.0, 5.0, f32::INFINITY, f32::NAN, 1e3]);
    let mut words = vec![
        random.from_to(4, 60) as f32,
        5.0,
        sigma,
        1.0,
        0.0,
        is_max,
        ratio,
    ];
    let cubics = match random.below(6) {
        0 => core::array::from_fn(|_| random.four()),
        1 => exact_determinant(random, is_max),
        2 => exact_move(random, set, is_max),
        3 => exact_denominator(random, set, is_max),
        _ => {
            if random.once_in(3) {
                *set = if random.once_in(2) {
                    sets::real(random)
                } else {
                    sets::near_t(random)
                };
            }
            bump(random, is_max)
        }
    };
    cubics.iter().for_each(|cubic| words.extend(cubic));
    words
}

fn level(values: [f32; 9]) -> [[f32; 4]; 9] {
    values.map(|value| [0.0, 0.0, 0.0, value])
}

/// A peak of the given polarity with a little slope and noise, small terms in sigma.
fn bump(random: &mut Random, is_max: f32) -> [[f32; 4]; 9] {
    let sign = if is_max == 1.0 { -1.0 } else { 1.0 };
    let size = match random.below(3) {
        0 => power(random.from_to(0, 60) as i32 - 40) as f32,
        _ => 1.0,
    };
    let (wide, tall) = (random.between(0.1, 1.5), random.between(0.1, 1.5));
    let (cross, right, down) = (
        random.between(-0.6, 0.6),
        random.between(-1.0, 1.0),
        random.between(-1.0, 1.0),
    );
    let terms = if random.once_in(2) { 0.0 } else { 0.05 };
    core::array::from_fn(|place| {
        let (y, x) = ((place / 3) as f32 - 1.0, (place % 3) as f32 - 1.0);
        let curve = wide * x * x + tall * y * y + cross * x * y + right * x + down * y;
        let mut small = || random.between(-terms, terms) * size;
        [small(), small(), small(), sign * size * curve + small()]
    })
}

/// A patch whose determinant is the f32 1e-10 or one of its neighbours.
fn exact_determinant(random: &mut Random, is_max: f32) -> [[f32; 4]; 9] {
    let sign = if is_max == 1.0 { -1.0 } else { 1.0 };
    let aim = random.pick(&[1e-10f32, 1e-10, 1e-10f32.next_up(), 1e-10f32.next_down()]);
    let (wide, tall) = factors(random, aim);
    let (wide, tall) = (wide * sign, tall * sign);
    level([0.0, tall, 0.0, wide, 0.0, 0.0, 0.0, 0.0, 0.0])
}

/// Two floats whose rounded product is `aim`.
fn factors(random: &mut Random, aim: f32) -> (f32, f32) {
    for _ in 0..64 {
        let one = random.between(0.5, 2.0) * 1e-5;
        let other = aim / one;
        if one * other == aim {
            return (one, other);
        }
    }
    (1.0, aim)
}

/// A set and patch whose move is exactly 0.6 or one float off, along x or y.
fn exact_move(random: &mut Random, set: &mut Set, is_max: f32) -> [[f32; 4]; 9] {
    let sign = if is_max == 1.0 { -1.0 } else { 1.0 };
    let steps = [0.6f32, 0.6, 0.6f32.next_up(), 0.6f32.next_down()];
    let step = random.pick(&steps) * if random.once_in(2) { 1.0 } else { -1.0 };
    *set = Set::t();
    let row = if random.once_in(2) { 27 } else { 36 };
    for block in [0, 45] {
        set.spatial[block + 27 + 4] = 0.0;
        set.spatial[block + row + 4] = 2.0;
    }
    level([0.0, sign, 0.0, sign, -sign * step, sign, 0.0, sign, 0.0])
}

/// A set and patch whose denominator, or whose w1, is the f32 1e-10 or one float off.
fn exact_denominator(random: &mut Random, set: &mut Set, is_max: f32) -> [[f32; 4]; 9] {
    let sign = if is_max == 1.0 { -1.0 } else { 1.0 };
    let aim = random.pick(&[1e-10f32, 1e-10, 1e-10f32.next_up(), 1e-10f32.next_down()]);
    *set = Set::t();
    let (one, other) = match random.below(2) {
        0 => {
            let (one, other) = factors(random, aim);
            (one, other / 4.0)
        }
        _ => (aim, 1e9),
    };
    for block in [0, 45] {
        set.spatial[block + 3] = one;
        set.spatial[block + 9 + 5] = other;
        set.spatial[block + 27 + 4] = 0.0;
    }
    level([0.0, sign, 0.0, sign, 0.0, sign, 0.0, sign, 0.0])
}

/// Four samples of one sign near the line that a Gaussian profile gives, or any.
fn profile(random: &mut Random, set: &mut Set) -> Vec<f32> {
    if random.once_in(2) {
        *set = sets::real(random);
    }
    if random.once_in(4) {
        return random.four().to_vec();
    }
    if random.once_in(4) {
        return records::samples(random).to_vec();
    }
    if random.once_in(4) {
        return level_line(random, set);
    }
    let sign = if random.once_in(2) { 1.0 } else { -1.0 };
    let size = match random.below(3) {
        0 => power(random.from_to(0, 100) as i32 - 50),
        _ => 1.0,
    };
    let own = random.unit() * 9.0 + 0.2;
    let grain = random.pick(&[0.0, 0.0, 1e-3, 0.05, 0.3]);
    set.sigmas
        .map(|sigma| {
            let square = f64::from(sigma) * f64::from(sigma);
            let under = (square + own) * (square + own);
            (sign * size * square / under * (1.0 + grain * (random.unit() - 0.5))) as f32
        })
        .to_vec()
}

/// Samples whose line has slope 0, or, for set T's sigmas, intercept 0.
pub fn level_line(random: &mut Random, set: &mut Set) -> Vec<f32> {
    let size = power(random.from_to(0, 20) as i32 - 10) as f32;
    let size = if random.once_in(2) { size } else { -size };
    if random.once_in(2) {
        return set.sigmas.map(|sigma| size * (sigma * sigma)).to_vec();
    }
    set.sigmas = Set::t().sigmas;
    set.sigmas.map(|sigma| size / (sigma * sigma)).to_vec()
}

fn statistic(random: &mut Random, set: &Set) -> Vec<f32> {
    let (lower, upper) = (set.numbers[8], set.numbers[9]);
    match random.below(8) {
        0 => vec![],
        1 => vec![random.any()],
        2 => vec![lower],
        3 => vec![lower.next_up()],
        4 => vec![upper],
        5 => vec![upper.next_down()],
        _ => vec![random.between(f64::from(lower) * 0.9, f64::from(upper) * 1.1)],
    }
}

/// beta, a, derivative, curvature, bounded move.
fn model(random: &mut Random, set: &Set) -> Vec<f32> {
    let (beta, boost) = (set.numbers[6], set.numbers[7]);
    let blend = match random.below(6) {
        0 => random.any(),
        1 => beta,
        2 => boost,
        _ => random.between(f64::from(beta), f64::from(boost)),
    };
    let mut words = vec![blend];
    match random.below(6) {
        0 => words.extend(random.four()),
        1 => {
            let size = power(random.from_to(0, 20) as i32 - 10) as f32;
            words.extend([3.0 * size, size, random.pick(&[6.0, -6.0]) * size, 0.05]);
        }
        _ => words.extend([
            random.between(-0.5, 0.5),
            random.between(-1.0, 1.0),
            random.between(-3.0, 3.0),
            random.between(-0.1, 0.1),
        ]),
    }
    words
}
