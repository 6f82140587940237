//! The published text's inner functions, one at a time, under a set and rules; under `Rules::Published` a clamp with bad bounds panics, as there.

use super::{reference, scale_fit, stream};
use crate::causes;
use crate::here::with;
use crate::shims::extraction::ScaleSpaceKeypoint;
use crate::{Logs, Rules, Set};

pub type Cubic = [f32; 4];

/// A spot as the refinement sees it.
#[derive(Clone, Copy, Debug, PartialEq)]
pub struct Spot {
    pub x: f32,
    pub y: f32,
    pub sigma: f32,
    pub peak: f32,
    pub scale_index: usize,
    pub is_max: bool,
}

fn under<R>(rules: Rules, set: &Set, work: impl FnOnce() -> R) -> R {
    with(rules, Logs::Steps, set, work)
}

pub fn compute_poly_coeffs(rules: Rules, set: &Set, samples: [f32; 4]) -> Cubic {
    let [l0, l1, l2, l3] = samples;
    under(rules, set, || {
        scale_fit::compute_poly_coeffs(l0, l1, l2, l3)
    })
}

pub fn geometry_poly_coeffs(rules: Rules, set: &Set, samples: [f32; 4]) -> Cubic {
    under(rules, set, || {
        scale_fit::compute_geometry_poly_coeffs(&samples)
    })
}

pub fn horner(rules: Rules, set: &Set, coeffs: Cubic, s: f32) -> f32 {
    under(rules, set, || scale_fit::horner(coeffs, s))
}

pub fn neighbor_scale_band(rules: Rules, set: &Set, sigma: f32) -> (f32, f32) {
    under(rules, set, || scale_fit::neighbor_scale_band(sigma))
}

pub fn band_extreme(
    rules: Rules,
    set: &Set,
    coeffs: Cubic,
    low: f32,
    high: f32,
    is_max: bool,
) -> f32 {
    under(rules, set, || {
        scale_fit::band_extreme(coeffs, low, high, is_max)
    })
}

pub fn owns_scale_extremum(rules: Rules, set: &Set, samples: [f32; 4], is_max: bool) -> bool {
    under(rules, set, || {
        scale_fit::owns_scale_extremum(&samples, is_max)
    })
}

/// The minimum, the maximum, the minimum's sigma, the maximum's sigma.
pub fn scale_envelope(rules: Rules, set: &Set, samples: [f32; 4]) -> (f32, f32, f32, f32) {
    under(rules, set, || stream::scale_envelope(samples))
}

/// The same four, from given coefficients and the two end samples.
pub fn polynomial_extrema(
    rules: Rules,
    set: &Set,
    coeffs: Cubic,
    l0: f32,
    l3: f32,
) -> (f32, f32, f32, f32) {
    under(rules, set, || {
        reference::ScaleSpace::polynomial_extrema(coeffs, l0, l3)
    })
}

pub fn get_q_scale_index(rules: Rules, set: &Set, sigma: f32) -> usize {
    under(rules, set, || scale_fit::get_q_scale_index(sigma))
}

/// The scale index is 1 or 2.
pub fn fit_spatial_quadratic(
    rules: Rules,
    set: &Set,
    scale_index: usize,
    samples: [f32; 9],
) -> [f32; 5] {
    under(rules, set, || {
        scale_fit::fit_spatial_quadratic(scale_index, &samples)
    })
}

/// Whether it accepts; the spot is changed as the published text changes it.
pub fn refine_keypoint_2d(
    rules: Rules,
    set: &Set,
    spot: &mut Spot,
    cubics: &[Cubic; 9],
    ratio: f32,
) -> bool {
    let mut lent = ScaleSpaceKeypoint {
        x: spot.x,
        y: spot.y,
        sigma: spot.sigma,
        orientation: 0.0,
        peak: spot.peak,
        octave: 0,
        scale_index: spot.scale_index,
        is_max: spot.is_max,
    };
    let accepts = under(rules, set, || {
        scale_fit::refine_keypoint_2d(&mut lent, cubics, ratio)
    });
    let ScaleSpaceKeypoint {
        x,
        y,
        sigma,
        peak,
        scale_index,
        is_max,
        ..
    } = lent;
    *spot = Spot {
        x,
        y,
        sigma,
        peak,
        scale_index,
        is_max,
    };
    accepts
}

/// The statistic, or one of its four causes.
pub fn profile_compatibility_statistic(
    rules: Rules,
    set: &Set,
    samples: [f32; 4],
) -> Result<f32, u8> {
    under(rules, set, || {
        causes::statistic(|| scale_fit::profile_compatibility_statistic(&samples))
    })
}

pub fn profile_beta_from_statistic(rules: Rules, set: &Set, statistic: Option<f32>) -> f32 {
    under(rules, set, || {
        scale_fit::profile_beta_from_statistic(statistic)
    })
}

pub fn profile_blend_beta(rules: Rules, set: &Set, samples: [f32; 4]) -> f32 {
    under(rules, set, || scale_fit::profile_blend_beta(&samples))
}

pub fn profile_bounded_move(rules: Rules, set: &Set, beta: f32, raw_step: f32) -> f32 {
    under(rules, set, || {
        scale_fit::profile_bounded_move(beta, raw_step)
    })
}

pub fn profile_model_move(
    rules: Rules,
    set: &Set,
    beta: f32,
    a: f32,
    derivative: f32,
    curvature: f32,
    bounded: f32,
) -> f32 {
    under(rules, set, || {
        scale_fit::profile_model_move(beta, a, derivative, curvature, bounded)
    })
}
