//! The proved inner functions: those of the detector, one number a call, as the archive of the crate `probe` exports them, and the float helpers of
//! `float_c`.

use crate::Subject;
use cases::Set;
use cases::levels::{FILL, TAPS};
pub use uramsheg::float;

/// A slice is passed as its start and its length.
mod raw {
    unsafe extern "C" {
        pub safe fn probe_quick(x: f32) -> f32;
        pub safe fn probe_horner(a: f32, b: f32, c: f32, d: f32, s: f32) -> f32;
        pub safe fn probe_extreme(
            a: f32,
            b: f32,
            c: f32,
            d: f32,
            low: f32,
            high: f32,
            is_max: bool,
        ) -> f32;
        pub safe fn probe_owns(l0: f32, l1: f32, l2: f32, l3: f32, is_max: bool) -> bool;
        pub fn probe_cubic(
            set: *const u8,
            set_length: usize,
            geometry: bool,
            l0: f32,
            l1: f32,
            l2: f32,
            l3: f32,
            i: usize,
        ) -> f32;
        pub fn probe_band(set: *const u8, set_length: usize, sigma: f32, high: bool) -> f32;
        pub fn probe_envelope(
            set: *const u8,
            set_length: usize,
            l0: f32,
            l1: f32,
            l2: f32,
            l3: f32,
            i: usize,
        ) -> f32;
        pub fn probe_extrema(
            set: *const u8,
            set_length: usize,
            a: f32,
            b: f32,
            c: f32,
            d: f32,
            l0: f32,
            l3: f32,
            i: usize,
        ) -> f32;
        pub fn probe_index(set: *const u8, set_length: usize, sigma: f32) -> u8;
        pub fn probe_spatial(
            set: *const u8,
            set_length: usize,
            index: u8,
            values: *const f32,
            values_length: usize,
            i: usize,
        ) -> f32;
        pub fn probe_refine(
            set: *const u8,
            set_length: usize,
            k: *const f32,
            k_length: usize,
            x: f32,
            y: f32,
            sigma: f32,
            peak: f32,
            is_max: bool,
            ratio: f32,
            i: usize,
        ) -> f32;
        pub fn probe_statistic(
            set: *const u8,
            set_length: usize,
            l0: f32,
            l1: f32,
            l2: f32,
            l3: f32,
        ) -> f32;
        pub fn probe_beta(set: *const u8, set_length: usize, present: bool, statistic: f32) -> f32;
        pub fn probe_blend(
            set: *const u8,
            set_length: usize,
            l0: f32,
            l1: f32,
            l2: f32,
            l3: f32,
        ) -> f32;
        pub fn probe_bounded(set: *const u8, set_length: usize, beta: f32, raw: f32) -> f32;
        pub fn probe_model(
            set: *const u8,
            set_length: usize,
            beta: f32,
            a: f32,
            derivative: f32,
            curvature: f32,
            bounded: f32,
        ) -> f32;
        pub safe fn probe_gaussian(sigma: f32, i: usize) -> f32;
        pub safe fn probe_kernel(octave: usize, third: f32, target: f32, i: usize) -> f32;
        pub fn probe_blur(
            radius_a: usize,
            taps_a: *const f32,
            taps_a_length: usize,
            radius_b: usize,
            taps_b: *const f32,
            taps_b_length: usize,
            rows: usize,
            cols: usize,
            raw: *const f32,
            raw_length: usize,
            out_a: *mut f32,
            out_a_length: usize,
            out_b: *mut f32,
            out_b_length: usize,
        ) -> bool;
    }
}

pub use raw::{probe_extreme, probe_gaussian, probe_horner, probe_kernel, probe_owns, probe_quick};

/// The i-th coefficient of the cubic in log2 of sigma, or of the one in sigma.
pub fn probe_cubic(set: &[u8], geometry: bool, samples: [f32; 4], i: usize) -> f32 {
    let [l0, l1, l2, l3] = samples;
    // SAFETY: the function is proved total and reads the lent slice alone; so is each below.
    unsafe { raw::probe_cubic(set.as_ptr(), set.len(), geometry, l0, l1, l2, l3, i) }
}

/// The high or the low end of the band.
pub fn probe_band(set: &[u8], sigma: f32, high: bool) -> f32 {
    unsafe { raw::probe_band(set.as_ptr(), set.len(), sigma, high) }
}

/// The i-th number of the envelope of four samples.
pub fn probe_envelope(set: &[u8], samples: [f32; 4], i: usize) -> f32 {
    let [l0, l1, l2, l3] = samples;
    unsafe { raw::probe_envelope(set.as_ptr(), set.len(), l0, l1, l2, l3, i) }
}

/// The i-th number of the envelope of a cubic and the two end samples.
pub fn probe_extrema(set: &[u8], cubic: [f32; 4], l0: f32, l3: f32, i: usize) -> f32 {
    let [a, b, c, d] = cubic;
    unsafe { raw::probe_extrema(set.as_ptr(), set.len(), a, b, c, d, l0, l3, i) }
}

/// The inner level whose fit a sigma takes.
pub fn probe_index(set: &[u8], sigma: f32) -> u8 {
    unsafe { raw::probe_index(set.as_ptr(), set.len(), sigma) }
}

/// The i-th of w1 to w5.
pub fn probe_spatial(set: &[u8], index: u8, values: &[f32], i: usize) -> f32 {
    unsafe {
        raw::probe_spatial(
            set.as_ptr(),
            set.len(),
            index,
            values.as_ptr(),
            values.len(),
            i,
        )
    }
}

/// A spot to be refined: its octave and its scale index are 0.
#[derive(Clone, Copy)]
pub struct Fresh {
    pub x: f32,
    pub y: f32,
    pub sigma: f32,
    pub peak: f32,
    pub is_max: bool,
}

/// The i-th number that the refinement leaves: accepted, x, y, sigma, peak, scale index.
pub fn probe_refine(set: &[u8], cubics: &[f32], spot: Fresh, ratio: f32, i: usize) -> f32 {
    let Fresh {
        x,
        y,
        sigma,
        peak,
        is_max,
    } = spot;
    unsafe {
        raw::probe_refine(
            set.as_ptr(),
            set.len(),
            cubics.as_ptr(),
            cubics.len(),
            x,
            y,
            sigma,
            peak,
            is_max,
            ratio,
            i,
        )
    }
}

/// The profile statistic of four samples, or minus the number of the cause why there is none.
pub fn probe_statistic(set: &[u8], samples: [f32; 4]) -> f32 {
    let [l0, l1, l2, l3] = samples;
    unsafe { raw::probe_statistic(set.as_ptr(), set.len(), l0, l1, l2, l3) }
}

/// The part of a step that a statistic allows.
pub fn probe_beta(set: &[u8], statistic: Option<f32>) -> f32 {
    let (present, value) = (statistic.is_some(), statistic.unwrap_or(0.0));
    unsafe { raw::probe_beta(set.as_ptr(), set.len(), present, value) }
}

/// The part of a step that four samples allow.
pub fn probe_blend(set: &[u8], samples: [f32; 4]) -> f32 {
    let [l0, l1, l2, l3] = samples;
    unsafe { raw::probe_blend(set.as_ptr(), set.len(), l0, l1, l2, l3) }
}

/// The part of the raw step, held to the cap.
pub fn probe_bounded(set: &[u8], beta: f32, raw_step: f32) -> f32 {
    unsafe { raw::probe_bounded(set.as_ptr(), set.len(), beta, raw_step) }
}

/// The move that the model proposes, of beta, the cubic's leading coefficient, the derivative, the curvature and the bounded move.
pub fn probe_model(set: &[u8], numbers: [f32; 5]) -> f32 {
    let [beta, a, derivative, curvature, bounded] = numbers;
    unsafe {
        raw::probe_model(
            set.as_ptr(),
            set.len(),
            beta,
            a,
            derivative,
            curvature,
            bounded,
        )
    }
}

/// A kernel given: its radius and its taps.
#[derive(Clone, Copy)]
pub struct Given<'a> {
    pub radius: usize,
    pub taps: &'a [f32],
}

/// Two levels of a raw map of rows by cols, by two kernels given: whether they were made.
pub fn probe_blur(
    [a, b]: [Given; 2],
    (rows, cols, raw): (usize, usize, &[f32]),
    [out_a, out_b]: [&mut [f32]; 2],
) -> bool {
    // SAFETY: each pointer goes with its own slice's length, and neither buffer overlaps another.
    unsafe {
        raw::probe_blur(
            a.radius,
            a.taps.as_ptr(),
            a.taps.len(),
            b.radius,
            b.taps.as_ptr(),
            b.taps.len(),
            rows,
            cols,
            raw.as_ptr(),
            raw.len(),
            out_a.as_mut_ptr(),
            out_a.len(),
            out_b.as_mut_ptr(),
            out_b.len(),
        )
    }
}

/// The two archives as a subject: they offer every inner function.
pub struct Probe;

fn bit(value: bool) -> f32 {
    if value { 1.0 } else { 0.0 }
}

fn each(count: usize, number: impl FnMut(usize) -> f32) -> Vec<f32> {
    (0..count).map(number).collect()
}

impl Subject for Probe {
    fn name(&self) -> String {
        "the proved inner functions".to_string()
    }

    fn inner(&mut self, function: &str, set: &Set, words: &[f32]) -> Option<Vec<f32>> {
        let set = &set.record();
        helper(function, words)
            .or_else(|| profile(function, set, words))
            .or_else(|| fit(function, set, words))
            .or_else(|| level(function, words))
    }
}

/// The first words, as many as are asked for.
fn first<const N: usize>(words: &[f32]) -> [f32; N] {
    core::array::from_fn(|place| words.get(place).copied().unwrap_or(0.0))
}

fn helper(function: &str, words: &[f32]) -> Option<Vec<f32>> {
    let of_each = |helper: fn(f32) -> f32| words.iter().map(|&word| helper(word)).collect();
    let [a, b, c] = first(words);
    Some(match function {
        "log2" => of_each(float::log2),
        "exp" => of_each(float::exp),
        "sqrt" => of_each(float::sqrt),
        "abs" => of_each(float::abs),
        "is_finite" => of_each(|word| bit(float::is_finite(word))),
        "min" => vec![float::min(a, b)],
        "max" => vec![float::max(a, b)],
        "clamp" => vec![float::clamp(a, b, c)],
        _ => return None,
    })
}

fn profile(function: &str, set: &[u8], words: &[f32]) -> Option<Vec<f32>> {
    let four = first(words);
    Some(match function {
        "profile_compatibility_statistic" => vec![probe_statistic(set, four)],
        "profile_beta_from_statistic" => vec![probe_beta(set, words.first().copied())],
        "profile_blend_beta" => vec![probe_blend(set, four)],
        "profile_bounded_move" => vec![probe_bounded(set, four[0], four[1])],
        "profile_model_move" => vec![probe_model(set, first(words))],
        _ => return None,
    })
}

fn fit(function: &str, set: &[u8], words: &[f32]) -> Option<Vec<f32>> {
    let four @ [a, b, c, d] = first(words);
    Some(match function {
        "compute_poly_coeffs" => each(4, |i| probe_cubic(set, false, four, i)),
        "geometry_poly_coeffs" => each(4, |i| probe_cubic(set, true, four, i)),
        "horner" => vec![probe_horner(a, b, c, d, words[4])],
        "neighbor_scale_band" => each(2, |i| probe_band(set, a, i == 1)),
        "band_extreme" => {
            let is_max = words[6] == 1.0;
            vec![probe_extreme(a, b, c, d, words[4], words[5], is_max)]
        }
        "owns_scale_extremum" => vec![bit(probe_owns(a, b, c, d, words[4] == 1.0))],
        "scale_envelope" => each(4, |i| probe_envelope(set, four, i)),
        "polynomial_extrema" => each(4, |i| probe_extrema(set, four, words[4], words[5], i)),
        "get_q_scale_index" => vec![f32::from(probe_index(set, a))],
        "fit_spatial_quadratic" => each(5, |i| probe_spatial(set, a as u8, &words[1..], i)),
        "refine_keypoint_2d" => return refine(set, words),
        _ => return None,
    })
}

/// x, y, sigma, peak, scale index, polarity, ratio limit, 36 coefficients; only a scale index of 0 is offered, and the polarity is handed back.
fn refine(set: &[u8], words: &[f32]) -> Option<Vec<f32>> {
    if words[4] != 0.0 {
        return None;
    }
    let spot = Fresh {
        x: words[0],
        y: words[1],
        sigma: words[2],
        peak: words[3],
        is_max: words[5] == 1.0,
    };
    let mut left = each(6, |i| probe_refine(set, &words[7..], spot, words[6], i));
    left.push(bit(spot.is_max));
    Some(left)
}

fn level(function: &str, words: &[f32]) -> Option<Vec<f32>> {
    let [a, third, target] = first(words);
    Some(match function {
        "gaussian" => each(1 + TAPS, |i| probe_gaussian(a, i)),
        "kernel" => each(1 + TAPS, |i| probe_kernel(a as usize, third, target, i)),
        "blur" => blur(words),
        _ => return None,
    })
}

/// Two radii each with 17 taps, rows, cols, two rooms and the raw pixels.
fn blur(words: &[f32]) -> Vec<f32> {
    let (kernels, rest) = words.split_at(2 * (1 + TAPS));
    let given = |kernel: usize| {
        let words = &kernels[kernel * (1 + TAPS)..(kernel + 1) * (1 + TAPS)];
        Given {
            radius: words[0] as usize,
            taps: &words[1..],
        }
    };
    let [rows, cols, room_a, room_b] = first(rest).map(|word: f32| word as usize);
    let [mut out_a, mut out_b] = [room_a, room_b].map(|room| vec![FILL; room]);
    let lent = [&mut out_a[..], &mut out_b[..]];
    let made = probe_blur([given(0), given(1)], (rows, cols, &rest[4..]), lent);
    [vec![bit(made)], out_a, out_b].concat()
}
