//! Inner functions exactly where a test turns, built so that both sides of the test answer differently.

use crate::random::{Random, power};
use crate::sets::{self, Set};

/// The functions that have such cases.
const FUNCTIONS: [&str; 8] = [
    "band_extreme",
    "scale_envelope",
    "polynomial_extrema",
    "profile_beta_from_statistic",
    "profile_model_move",
    "refine_keypoint_2d",
    "owns_scale_extremum",
    "min",
];

/// The function, set and words of one case.
pub fn words(random: &mut Random, number: usize) -> (&'static str, Set, Vec<f32>) {
    let function = FUNCTIONS[number % FUNCTIONS.len()];
    let mut set = Set::t();
    let words = match function {
        "band_extreme" => band(random),
        "scale_envelope" => envelope(random, &mut set),
        "polynomial_extrema" => extrema(random),
        "profile_beta_from_statistic" => beta(random, &mut set),
        "profile_model_move" => model(random, &mut set),
        "refine_keypoint_2d" => refinement(random, &mut set),
        "owns_scale_extremum" => owns(random),
        _ => vec![
            random.pick(&[0.0, -0.0, f32::NAN]),
            random.pick(&[0.0, -0.0, f32::NAN]),
        ],
    };
    (function, set, words)
}

/// The f32 nearest to 1e-6 or a float beside it, of either sign.
fn small_edge(random: &mut Random) -> f32 {
    let edge = random.pick(&[1e-6f32, 1e-6, 1e-6f32.next_up(), 1e-6f32.next_down()]);
    if random.once_in(2) { edge } else { -edge }
}

/// A cubic whose leading or second term stands at the 1e-6 edge, with a stationary point between 1 and 4.
fn edge_cubic(random: &mut Random) -> [f32; 4] {
    let at = random.between(1.3, 3.5);
    let edge = small_edge(random);
    if random.once_in(2) {
        let other = random.between(1.3, 3.5);
        return [
            edge,
            -1.5 * edge * (at + other),
            3.0 * edge * at * other,
            0.0,
        ];
    }
    let lead = random.pick(&[0.0, 0.0, 1e-9, 1e-6]);
    [lead, edge, -2.0 * edge * at, 0.0]
}

fn band(random: &mut Random) -> Vec<f32> {
    let mut words = edge_cubic(random).to_vec();
    words.extend([1.0, random.pick(&[4.0, 4.5]), random.below(2) as f32]);
    words
}

fn extrema(random: &mut Random) -> Vec<f32> {
    let coeffs @ [a, b, c, d] = edge_cubic(random);
    let at = |s: f32| ((a * s + b) * s + c) * s + d;
    let mut words = coeffs.to_vec();
    words.extend([at(1.0), at(4.0)]);
    words
}

/// Under set T: a stationary point at an outer sigma, or whose value ties with an end sample, or a or b at the edge;
/// under far sigmas, a curvature of the wrong sign or a value that overflows.
fn envelope(random: &mut Random, set: &mut Set) -> Vec<f32> {
    let size = power(random.from_to(0, 8) as i32 - 4) as f32;
    let sign = random.pick(&[1.0, -1.0]);
    match random.below(6) {
        3 => {
            set.scale[2] = small_edge(random);
            vec![
                -sign,
                sign * random.between(3.0, 7.0),
                random.pick(&[1.0, -1.0]),
                0.0,
            ]
        }
        4 => {
            set.sigmas = [1.0, 10.0, 100.0, 1000.0];
            set.scale[2] = -5e-7 * sign;
            let b = 2e-6 * sign;
            vec![b, -2.0 * b * random.between(200.0, 900.0), 1.0, 0.0]
        }
        5 => {
            set.sigmas = [1.0, 2.0, 3.0, 1e20];
            vec![sign, -2.0 * sign * random.between(1e19, 3e19), 0.0, 0.0]
        }
        0 => {
            let [_, b, c, _] = edge_cubic(random);
            vec![b, c, 0.0, 0.0]
        }
        1 => {
            let at = random.pick(&[1.0, 4.0, 2.0]);
            let low = random.pick(&[0.0, -1.0, 3.0]);
            vec![-sign * size, sign * 2.0 * at * size, low * size, 0.0]
        }
        _ => {
            set.scale[2] = random.pick(&[0.0, 1e-6]);
            let tie = random.pick(&[4.0f32, 4.0f32.next_up(), 4.0f32.next_down()]);
            vec![-sign * size, sign * 4.0 * size, -sign * tie * size, 0.0]
        }
    }
}

/// A statistic at an edge of the compatibility, with a boost and a beta far apart.
fn beta(random: &mut Random, set: &mut Set) -> Vec<f32> {
    *set = sets::real(random);
    if random.once_in(2) {
        set.numbers[6] = f32::MIN;
        set.numbers[7] = f32::MAX;
    }
    let (lower, upper) = (set.numbers[8], set.numbers[9]);
    let edge = random.pick(&[lower, upper]);
    vec![random.pick(&[edge, edge, edge.next_up(), edge.next_down()])]
}

/// A discriminant of exactly 0, a weight of exactly 0 or 1, or just above 0.
fn model(random: &mut Random, set: &mut Set) -> Vec<f32> {
    *set = sets::real(random);
    let (beta, boost) = (set.numbers[6], set.numbers[7]);
    let size = power(random.from_to(0, 20) as i32 - 10) as f32;
    let near = beta + (boost - beta) * random.pick(&[0.002, 0.009, 0.5]);
    let blend = random.pick(&[near, boost, beta, beta.next_up()]);
    let turn = random.pick(&[6.0f32, -6.0, 6.5, -7.0, 5.9]);
    vec![
        blend,
        3.0 * size,
        size,
        turn * size,
        random.between(-0.1, 0.1),
    ]
}

/// A patch whose ratio, or whose move, or whose determinant stands exactly at its limit.
fn refinement(random: &mut Random, set: &mut Set) -> Vec<f32> {
    let is_max = random.below(2) as f32;
    let sign = if is_max == 1.0 { -1.0 } else { 1.0 };
    *set = sets::every_pixel();
    let (wide, tall) = random.pick(&[(1.0f32, 1.0f32), (2.0, 1.0), (4.0, 1.0), (1.0, 8.0)]);
    let exact = (2.0 * wide + 2.0 * tall) * (2.0 * wide + 2.0 * tall) / (4.0 * wide * tall);
    let ratio = random.pick(&[exact, exact.next_down(), exact.next_up(), f32::NAN]);
    let values = [0.0, tall, 0.0, wide, 0.0, wide, 0.0, tall, 0.0];
    let mut words = vec![9.0, 7.0, 2.0, 1.0, 0.0, is_max, ratio];
    for value in values {
        words.extend([0.0, 0.0, 0.0, sign * value]);
    }
    words
}

fn owns(random: &mut Random) -> Vec<f32> {
    let value = random.between(-2.0, 2.0);
    let mut words: Vec<f32> = (0..4)
        .map(|_| random.pick(&[value, value, value.next_up(), value.next_down()]))
        .collect();
    words.push(random.below(2) as f32);
    words
}
