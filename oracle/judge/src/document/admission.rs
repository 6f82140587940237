//! The extra test a spot passes before it is listed under document 01's rules.

use crate::Rules;
use crate::counting;
use crate::here::here;
use crate::moves;
use crate::record::{self, Spot, all_finite};
use crate::shims::extraction::ScaleSpaceKeypoint;

/// Whether the spot is listed: its floats finite, the join accepts it, and the samples of its pixel and the eight neighbours finite. Where it is, its
/// displacement is noted.
pub fn admits(
    (rows, cols): (usize, usize),
    key: usize,
    geometry: &mut ScaleSpaceKeypoint,
    moved: [f32; 2],
    center: &[f32; 4],
    samples_at: impl Fn(usize) -> [f32; 4],
) -> bool {
    let laid = || {
        record::laid(&Spot {
            geometry: *geometry,
            moved: Some(moved),
            samples: *center,
            key,
        })
    };
    let sound = |laid: &[u8]| {
        all_finite(&record::floats(laid))
            && record::readable(rows, cols, laid)
            && (0..9).all(|index| all_finite(&samples_at(index)))
    };
    let listed =
        here().rules == Rules::Published || counting::let_pass(counting::EXTRA, sound(&laid()));
    if listed {
        moves::note(geometry, moved);
    }
    listed
}
