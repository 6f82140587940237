//! Why the published text gives no statistic or no size: the place of the return that it took, noted there.

use core::cell::Cell;
use std::thread::LocalKey;

// The statistic's eight places, in the text's order.
pub const SAMPLES: usize = 0;
pub const QUOTIENTS: usize = 1;
pub const ROOTS: usize = 2;
pub const LARGEST_ROOT: usize = 3;
pub const SCALED_ROOTS: usize = 4;
pub const LINE: usize = 5;
pub const ENERGIES: usize = 6;
pub const LAST_QUOTIENT: usize = 7;
// The correction's two.
pub const POLARITY: usize = 8;
pub const RANGE: usize = 9;

/// Document 02's cause at each place: the statistic's, then the correction's.
const CAUSES: [u8; 10] = [1, 2, 2, 2, 2, 3, 4, 4, 1, 2];

const NAMES: [&str; 10] = [
    "statistic, samples",
    "statistic, quotients",
    "statistic, roots",
    "statistic, largest root",
    "statistic, scaled roots",
    "statistic, line",
    "statistic, energies",
    "statistic, last quotient",
    "correction, polarity",
    "correction, range",
];

/// Where a place is noted.
type Note = Cell<Option<usize>>;

thread_local! {
    static STATISTIC: Note = const { Cell::new(None) };
    static SIZE: Note = const { Cell::new(None) };
    static TAKEN: [Cell<u64>; 10] = const { [const { Cell::new(0) }; 10] };
}

fn none_at(place: usize, note: &'static LocalKey<Note>) -> Option<f32> {
    note.set(Some(place));
    TAKEN.with(|taken| taken[place].set(taken[place].get() + 1));
    None
}

/// The statistic's None at a place.
pub fn no_statistic(place: usize) -> Option<f32> {
    none_at(place, &STATISTIC)
}

/// The correction's None at a place.
pub fn no_size(place: usize) -> Option<f32> {
    none_at(place, &SIZE)
}

/// What the text gives, or the cause at the place where it gave None.
fn told(note: &'static LocalKey<Note>, given: impl FnOnce() -> Option<f32>) -> Result<f32, u8> {
    note.set(None);
    match (given(), note.get()) {
        (Some(number), None) => Ok(number),
        (None, Some(place)) => Err(CAUSES[place]),
        (number, place) => panic!("{number:?} is given, and the place noted is {place:?}"),
    }
}

/// A statistic, or one of its four causes.
pub fn statistic(given: impl FnOnce() -> Option<f32>) -> Result<f32, u8> {
    told(&STATISTIC, given)
}

/// A size, or one of the correction's two causes.
pub fn size(given: impl FnOnce() -> Option<f32>) -> Result<f32, u8> {
    told(&SIZE, given)
}

/// Each place with how often this thread took its return since the last reset.
pub fn returns() -> [(&'static str, u64); 10] {
    TAKEN.with(|taken| core::array::from_fn(|place| (NAMES[place], taken[place].get())))
}

/// Sets every count of this thread's returns to 0.
pub fn reset_returns() {
    TAKEN.with(|taken| taken.iter().for_each(|count| count.set(0)));
}
