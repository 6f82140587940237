//! Joins whose records are told apart by their displacement, by the list's length, or by why a spot has no size.

use crate::case::Case;
use crate::causes;
use crate::limits::NANS;
use crate::random::Random;
use crate::records::{self, Form, MOVED, OLD, PRESENT, SPOT};
use crate::sets;

/// The largest displacement of a sound record.
const FARTHEST: f32 = 0.6;

/// Displacements around which a record turns bad, by their number, and some that are never fine.
fn delta(random: &mut Random, kind: usize) -> f32 {
    let size = match kind / 2 {
        0 => FARTHEST,
        1 => FARTHEST.next_up(),
        2 => FARTHEST.next_down(),
        3 => 0.0,
        4 => random.pick(&[1e-45, 1e-39, f32::MIN_POSITIVE]),
        5 => 0.5,
        6 => f32::INFINITY,
        7 => random.pick(&[1.0, 0.75, f32::MAX]),
        8 => f32::from_bits(random.pick(&NANS)),
        9 => FARTHEST.next_up().next_up(),
        10 => random.between(0.0, 0.6),
        _ => random.pattern().abs(),
    };
    if kind % 2 == 0 { size } else { -size }
}

/// How many kinds of displacements there are.
const KINDS: usize = 24;
/// How many cases go through all of them: as delta x, as delta y, as both.
pub const ROUND: usize = 3 * KINDS;

/// A list of which one record has the displacement of a kind, in delta x, in delta y or in both.
fn told_by_deltas(random: &mut Random, number: usize) -> Case {
    let (rows, cols) = random.pick(&[(9, 10), (60, 60), (4096, 4096), (30, 7), (1, 4096)]);
    let set = sets::real(random);
    let count = random.from_to(1, 5);
    let mut list = Vec::new();
    for _ in 0..count {
        list.extend_from_slice(&records::sound(random, &set.sigmas, rows, cols));
    }
    let at = SPOT * random.below(count);
    let odd = delta(random, number % KINDS);
    for place in 0..2 {
        if number / KINDS % 3 != 1 - place {
            let from = at + MOVED + 4 * place;
            list[from..from + 4].copy_from_slice(&odd.to_le_bytes());
        }
    }
    // Now and then another record is bad otherwise: the first of the two is told.
    if random.once_in(6) {
        let other = SPOT * random.below(count);
        records::spoil(random, rows, cols, &mut list[other..other + SPOT]);
    }
    let short = usize::from(random.once_in(8));
    let room = PRESENT.needed(&list).saturating_sub(short);
    PRESENT.join(set, (rows, cols), list, room, 0x77)
}

/// A list so many bytes too long, by the number: each length between two whole numbers of records in turn.
pub(crate) fn odd_length(random: &mut Random, number: usize, form: Form) -> Case {
    let set = sets::real(random);
    let (rows, cols) = (random.from_to(9, 60), random.from_to(9, 60));
    let (over, whole) = (1 + number % (form.spot - 1), number / (form.spot - 1) % 5);
    let mut list = Vec::new();
    for _ in 0..whole + 1 {
        let record = records::sound(random, &set.sigmas, rows, cols);
        list.extend_from_slice(&record[..form.spot]);
    }
    list.truncate(form.spot * whole + over);
    // A bad record before the odd end is not told.
    if whole > 0 && random.once_in(4) {
        records::spoil(random, rows, cols, &mut list[..form.spot]);
    }
    let room = random.pick(&[0, form.needed(&list), form.sized * (whole + 1)]);
    form.join(set, (rows, cols), list, room, 0x77)
}

/// The join of four corrections' records, of which most have no size; the list's set is the last one's.
pub(crate) fn unsized_records(random: &mut Random, number: usize, form: Form) -> Case {
    let mut list = Vec::new();
    let (rows, cols) = (random.from_to(9, 60), random.from_to(9, 60));
    let mut last = sets::real(random);
    for _ in 0..4 {
        let Case::Correct {
            set,
            samples,
            sigma,
            is_max,
        } = causes::correction(random, number)
        else {
            continue;
        };
        let key = random.below(rows * cols);
        let (x, y) = ((key % cols) as f32, (key / cols) as f32);
        let [s0, s1, s2, s3] = samples;
        let octave = random.below(6) as u8;
        let small = [octave, random.from_to(1, 2) as u8, u8::from(is_max), 0];
        let record = records::bytes([x, y, sigma, s1, s0, s1, s2, s3], key as u32, small);
        list.extend_from_slice(&record[..form.spot]);
        last = set;
    }
    let room = form.needed(&list);
    form.join(last, (rows, cols), list, room, 0x77)
}

/// A list of the other form: its length is right now and then, and its records are bad.
pub(crate) fn of_the_other_form(random: &mut Random, number: usize, form: Form) -> Case {
    let set = sets::real(random);
    let (rows, cols) = (random.from_to(9, 60), random.from_to(9, 60));
    let other = if form == OLD { PRESENT } else { OLD };
    let mut list = Vec::new();
    for _ in 0..number % 13 {
        let record = records::sound(random, &set.sigmas, rows, cols);
        list.extend_from_slice(&record[..other.spot]);
    }
    let room = form.needed(&list) + form.sized;
    form.join(set, (rows, cols), list, room, 0x77)
}

/// The case of a number: half by the displacement, the others by the list's length, by the cause, or lists of the other form.
pub fn join(random: &mut Random, number: usize) -> Case {
    match number % 8 {
        0..4 => told_by_deltas(random, number / 8 * 4 + number % 8),
        4 | 5 => odd_length(random, number / 8 * 2 + number % 8 - 4, PRESENT),
        6 => unsized_records(random, number / 8, PRESENT),
        _ => of_the_other_form(random, number / 8, PRESENT),
    }
}
