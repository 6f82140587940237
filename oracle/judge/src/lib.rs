//! The judge: the published detector built from its text, with the set under test put in, behind document 01's entries.

mod fixed_sets;
mod set;
#[allow(dead_code)]
mod shims;

pub mod cases;
pub mod fixed;

/// The names by which the published text calls what surrounds it.
use shims::{extraction, math_compat};

include!(concat!(env!("OUT_DIR"), "/generated.rs"));

pub use causes::{reset_returns, returns};
pub use counting::{counts, reset_counts};
pub use entries::{correct, detect, downsample, join, join_old, octave_count_rule};
pub use levels::{RawMap, detect_raw, levels};
pub use list::list_program;
pub use partner::Reading;
pub use record::{OLD_SIZED, OLD_SPOT, SIZED, SPOT, moved, readable};
pub use run::inner;
pub use set::{Answer, Logs, Map, NoSize, Pass, Rules, Set, Thresholds};
pub use whole::blurred::Kernel;

/// The octave count by Rust's logarithm, as published.
pub fn octave_count_published(rows: usize, cols: usize) -> usize {
    entries::octave_count_published(Logs::Rust, rows, cols)
}

/// The octave count by the logarithm of the definitions' steps.
pub fn octave_count_by_steps(rows: usize, cols: usize) -> usize {
    entries::octave_count_published(Logs::Steps, rows, cols)
}
