//! The archive's whole scenes: by the wrapper, and as C has them.

use crate::Fed;
use crate::archive::thresholds_of;
use cases::Start;
use uramsheg::{Map, Refusal, raw};

/// The wrapper's answer; beside a refusal it hands on tiles alone. The set is lent beside what else is given.
pub fn wrapped(
    set: &[u8],
    given: &Start,
    levels: [&[f32]; 4],
    slices: [&mut [f32]; 4],
    out: &mut [u8],
) -> Fed {
    let map = Map {
        rows: given.rows,
        cols: given.cols,
        octave: given.octave,
        levels,
    };
    let thresholds = thresholds_of(given.thresholds);
    let (number, value) = match uramsheg::scene(set, thresholds, map, slices, out) {
        Ok(count) => (0, count),
        Err(Refusal::Full { tiles }) => (6, tiles),
        Err(refusal) => (refusal.number(), 0),
    };
    Fed {
        number,
        value: value as u64,
    }
}

/// The C function's own answer, its value another number before the call.
pub fn called(
    set: &[u8],
    given: &Start,
    levels: [&[f32]; 4],
    slices: [&mut [f32]; 4],
    out: &mut [u8],
) -> Fed {
    let [peak, sigma, ratio, low, high] = given.thresholds;
    let [l0, l1, l2, l3] = levels;
    let [t0, t1, t2, t3] = slices;
    let mut value = u64::MAX;
    // SAFETY: each pointer goes with its own slice's length, and what is written overlaps nothing.
    let number = unsafe {
        raw::uramsheg_scene(
            set.as_ptr(),
            set.len(),
            peak,
            sigma,
            ratio,
            low,
            high,
            given.rows,
            given.cols,
            given.octave,
            l0.as_ptr(),
            l0.len(),
            l1.as_ptr(),
            l1.len(),
            l2.as_ptr(),
            l2.len(),
            l3.as_ptr(),
            l3.len(),
            t0.as_mut_ptr(),
            t0.len(),
            t1.as_mut_ptr(),
            t1.len(),
            t2.as_mut_ptr(),
            t2.len(),
            t3.as_mut_ptr(),
            t3.len(),
            out.as_mut_ptr(),
            out.len(),
            &mut value,
        )
    };
    Fed { number, value }
}
