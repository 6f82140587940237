//! Joins of old lists, of records without a displacement: sound and damaged lists, those of detection, and lists of the other form.

use crate::case::Case;
use crate::deltas::{odd_length, of_the_other_form, unsized_records};
use crate::families::{damaged_records, join as joined, lively};
use crate::homes;
use crate::random::Random;
use crate::records::OLD;

/// The cases of `homes` once: the walk, and each kind of x with each of y.
const PLACES: usize = homes::WALK + homes::KINDS * homes::KINDS;

/// The case of a number: sound lists and lists with faults, damaged records, places where the home pixel turns, odd lengths, missing sizes, lists of the other
/// form, and detection's own records cut short.
pub fn join(random: &mut Random, number: usize) -> Case {
    let turn = number / 8;
    match number % 8 {
        // all choices of its faults in turn, and none
        faulty @ 0..2 => joined(random, 3 * turn + faulty, OLD),
        2 => damaged_records(random, OLD),
        3 => homes::join(random, 37 * turn % PLACES, OLD),
        4 => odd_length(random, turn, OLD),
        5 => unsized_records(random, turn, OLD),
        6 => of_the_other_form(random, turn, OLD),
        _ => Case::OldSized {
            scene: lively(random),
        },
    }
}
