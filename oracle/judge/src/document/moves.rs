//! How far the refinement moves a spot: where the text's own refinement ends that starts at (0, 0).

use crate::shims::extraction::ScaleSpaceKeypoint;
use core::cell::RefCell;

thread_local! {
    static NOTED: RefCell<Vec<[f32; 2]>> = const { RefCell::new(Vec::new()) };
}

/// A spot at (0, 0), else as it was before its refinement; what is added to +0 and is a zero ends as +0.
pub fn still(before: &ScaleSpaceKeypoint) -> ScaleSpaceKeypoint {
    ScaleSpaceKeypoint {
        x: 0.0,
        y: 0.0,
        ..*before
    }
}

/// Where a still spot ended; the refinement asks for no place, and accepts it as it accepted the spot.
pub fn displacement(accepted: bool, still: &ScaleSpaceKeypoint) -> [f32; 2] {
    assert!(
        accepted,
        "a spot is accepted at its place and not at (0, 0)"
    );
    [still.x, still.y]
}

/// Notes the displacement of a spot that is listed, and in its orientation, which stays 0 in the text, the note's number.
pub fn note(spot: &mut ScaleSpaceKeypoint, moved: [f32; 2]) {
    NOTED.with_borrow_mut(|noted| {
        spot.orientation = f32::from_bits(noted.len() as u32);
        noted.push(moved);
    });
}

/// The displacements noted since the last time.
pub fn taken() -> Vec<[f32; 2]> {
    NOTED.take()
}

/// A listed spot's, of those that were noted; none where the text as it stands ran.
pub fn of(noted: &[[f32; 2]], spot: &ScaleSpaceKeypoint) -> Option<[f32; 2]> {
    noted.get(spot.orientation.to_bits() as usize).copied()
}
