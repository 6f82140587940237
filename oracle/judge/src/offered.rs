//! What one build of the published text offers: its two passes on given levels, the correction, the octave count and the halving.

use super::blur::BaseImage;
use super::{GrayImage, reference, scale_fit, stream};
use crate::moves;
use crate::record::Spot;
use crate::shims::extraction::ScaleSpaceKeypoint;
use crate::{Map, Pass, Thresholds};
use std::time::Instant;

fn params(th: Thresholds) -> stream::DetectionParams {
    stream::DetectionParams {
        peak_threshold: th.peak,
        sigma_threshold: th.sigma,
        curv_ratio_threshold: th.ratio,
        sigma_window: (th.low, th.high),
    }
}

/// The candidates with the displacements noted of them; the text as it stands notes none.
fn spots(candidates: Vec<stream::Candidate>, noted: &[[f32; 2]]) -> Vec<Spot> {
    let spot = |candidate: stream::Candidate| Spot {
        geometry: candidate.geometry,
        moved: moves::of(noted, &candidate.geometry),
        samples: candidate.scale_samples,
        key: candidate.order_key,
    };
    candidates.into_iter().map(spot).collect()
}

/// The spots that a pass finds, and its seconds: the reference's with the levels in place, the streaming pass's with the copy of each column that stands
/// for its blur.
pub fn detect(pass: Pass, map: Map) -> (f64, Vec<Spot>) {
    let Map {
        thresholds,
        rows,
        cols,
        octave,
        levels,
    } = map;
    let (params, pixels) = (params(thresholds), levels.concat());
    let timed = |run: &dyn Fn() -> Vec<stream::Candidate>| {
        moves::taken();
        let began = Instant::now();
        let candidates = run();
        let seconds = began.elapsed().as_secs_f64();
        (seconds, spots(candidates, &moves::taken()))
    };
    match pass {
        Pass::Reference => {
            let base = GrayImage::from_vec(rows, cols, pixels);
            let space = reference::ScaleSpace::from_column_blur(&base, octave);
            timed(&|| space.detect_candidates(octave, &params))
        }
        Pass::Streaming => {
            let pixels = &pixels;
            let base = || BaseImage { pixels, rows, cols };
            timed(&|| stream::detect_octave(base(), octave, Some(&params), false).candidates)
        }
    }
}

/// Where the refinement by these cubics ends that starts at (0, 0), if it accepts the spot.
pub fn displacement(
    sigma: f32,
    is_max: bool,
    cubics: &[[f32; 4]; 9],
    ratio: f32,
) -> Option<[f32; 2]> {
    let mut still = ScaleSpaceKeypoint {
        x: 0.0,
        y: 0.0,
        sigma,
        orientation: 0.0,
        peak: 0.0,
        octave: 0,
        scale_index: 0,
        is_max,
    };
    let accepted = scale_fit::refine_keypoint_2d(&mut still, cubics, ratio);
    accepted.then_some([still.x, still.y])
}

pub fn correct(samples: &[f32; 4], sigma: f32, is_max: bool) -> Option<f32> {
    scale_fit::corrected_sigma_from_anchor(samples, sigma, is_max)
}

pub fn octave_count(rows: usize, cols: usize) -> usize {
    scale_fit::octave_count(&GrayImage::from_vec(rows, cols, Vec::new()))
}

pub fn downsample(rows: usize, cols: usize, level: &[f32]) -> GrayImage {
    reference::downsample(&GrayImage::from_vec(rows, cols, level.to_vec()))
}
