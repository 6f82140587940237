//! How often each gate was the first to reject a candidate.

use core::cell::Cell;

pub const WINDOW: usize = 0;
pub const PEAK: usize = 1;
pub const CURVATURE_NOT_FINITE: usize = 2;
pub const CURVATURE_SIGN: usize = 3;
pub const CURVATURE_SMALL: usize = 4;
pub const NOT_OWNED: usize = 5;
pub const BAND_NOT_BEATEN: usize = 6;
pub const HESSIAN: usize = 7;
pub const DETERMINANT: usize = 8;
pub const TRACE_SIGN: usize = 9;
pub const RATIO_NOT_FINITE: usize = 10;
pub const RATIO_ABOVE: usize = 11;
pub const FIT: usize = 12;
pub const DENOMINATOR: usize = 13;
pub const W1_SMALL: usize = 14;
pub const W1_SIGN: usize = 15;
pub const DISPLACEMENT_NOT_FINITE: usize = 16;
pub const DISPLACEMENT_X: usize = 17;
pub const DISPLACEMENT_Y: usize = 18;
pub const EXTRA: usize = 19;

const NAMES: [&str; 20] = [
    "window",
    "peak",
    "curvature not finite",
    "curvature sign",
    "curvature small",
    "not owned",
    "band not beaten",
    "hessian not finite",
    "determinant",
    "trace sign",
    "ratio not finite",
    "ratio above",
    "fit not finite",
    "denominator",
    "w1 small",
    "w1 sign",
    "displacement not finite",
    "displacement x",
    "displacement y",
    "extra admission test",
];

thread_local! {
    static COUNTING: Cell<bool> = const { Cell::new(false) };
    static COUNTS: [Cell<u64>; 20] = const { [const { Cell::new(0) }; 20] };
}

/// Counts the rejections of `work`.
pub fn counted<R>(work: impl FnOnce() -> R) -> R {
    COUNTING.set(true);
    let result = work();
    COUNTING.set(false);
    result
}

/// The gate rejects if it says so; what it says is given on.
#[inline]
pub fn said(gate: usize, rejects: bool) -> bool {
    if rejects && COUNTING.get() {
        COUNTS.with(|counts| counts[gate].set(counts[gate].get() + 1));
    }
    rejects
}

/// The gate rejects unless it lets pass; whether it does is given on.
#[inline]
pub fn let_pass(gate: usize, passes: bool) -> bool {
    !said(gate, !passes)
}

/// The part of the curvature's gate that a failing curvature fails first.
#[inline]
pub fn curvature(finite: bool, polarity_matches: bool) -> usize {
    match (finite, polarity_matches) {
        (false, _) => CURVATURE_NOT_FINITE,
        (true, false) => CURVATURE_SIGN,
        (true, true) => CURVATURE_SMALL,
    }
}

/// Each gate with its rejections in this thread's detections since the last reset.
pub fn counts() -> Vec<(&'static str, u64)> {
    COUNTS.with(|counts| {
        NAMES
            .iter()
            .zip(counts)
            .map(|(&name, count)| (name, count.get()))
            .collect()
    })
}

/// Sets every count of this thread to 0.
pub fn reset_counts() {
    COUNTS.with(|counts| counts.iter().for_each(|count| count.set(0)));
}
