//! The archive's reader of a partner's list: by the wrapper, and as C has it.

use crate::Reading;
use crate::archive::thresholds_of;
use cases::Start;
use uramsheg::{Finding, Map, Refusal, raw};

/// The wrapper's answer.
pub fn wrapped(set: &[u8], given: &Start, levels: [&[f32]; 4], list: &[u8]) -> Reading {
    let map = Map {
        rows: given.rows,
        cols: given.cols,
        octave: given.octave,
        levels,
    };
    let found = uramsheg::accept(set, thresholds_of(given.thresholds), map, list);
    let (number, finding, value) = match found {
        Ok(Finding::Accepted) => (0, 1, 0),
        Ok(Finding::Extra(at)) => (0, 2, at),
        Ok(Finding::Absent(at)) => (0, 3, at),
        Ok(Finding::Different(at)) => (0, 4, at),
        Err(Refusal::Records { index }) => (5, 0, index),
        Err(refusal) => (refusal.number(), 0, 0),
    };
    Reading {
        number,
        finding,
        value: value as u64,
    }
}

/// The C function's answer, its finding and its value other numbers before the call.
pub fn called(set: &[u8], given: &Start, [l0, l1, l2, l3]: [&[f32]; 4], list: &[u8]) -> Reading {
    let [peak, sigma, ratio, low, high] = given.thresholds;
    let (mut finding, mut value) = (u32::MAX, u64::MAX);
    // SAFETY: each pointer goes with its own slice's length, and neither the finding nor the value overlaps another.
    let number = unsafe {
        raw::uramsheg_accept(
            set.as_ptr(),
            set.len(),
            peak,
            sigma,
            ratio,
            low,
            high,
            given.rows,
            given.cols,
            given.octave,
            l0.as_ptr(),
            l0.len(),
            l1.as_ptr(),
            l1.len(),
            l2.as_ptr(),
            l2.len(),
            l3.as_ptr(),
            l3.len(),
            list.as_ptr(),
            list.len(),
            &mut finding,
            &mut value,
        )
    };
    Reading {
        number,
        finding,
        value,
    }
}
