//! Joins of records whose places lie where the nearest pixel turns.

use crate::case::Case;
use crate::random::Random;
use crate::records::{self, Form};
use crate::sets;

/// The halves of the longest side that one case of the walk takes.
const STEP: usize = 16;
/// Cases of the walk: together they have every half from 0.5 to 4094.5.
pub const WALK: usize = 4096 / STEP;
/// Kinds of places, as `place` counts them.
pub const KINDS: usize = 14;

/// The float just below 0.5: the f32 sum of the two is 1.
const BELOW_A_HALF: f32 = f32::from_bits(0x3eff_ffff);

/// The walk by the number; after it each kind of x with each kind of y, on sides of many lengths.
pub fn join(random: &mut Random, number: usize, form: Form) -> Case {
    if number < WALK {
        return walk(random, number, form);
    }
    let (kind, other) = (number % KINDS, number / KINDS % KINDS);
    let sides = [
        (4096, 4096),
        (60, 60),
        (9, 10),
        (30, 7),
        (2, 2),
        (1, 1),
        (1, 4096),
        (4096, 1),
    ];
    let (rows, cols) = random.pick(&sides);
    let mut places = Vec::new();
    for _ in 0..random.from_to(1, 3) {
        places.push((place(random, kind, cols), place(random, other, rows)));
    }
    joined(random, (rows, cols), &places, form)
}

/// Sixteen halves and the floats beside each, as x with y at or beside another half.
fn walk(random: &mut Random, number: usize, form: Form) -> Case {
    let mut places = Vec::new();
    for n in STEP * number..(STEP * (number + 1)).min(4095) {
        let (x, y) = (n as f32 + 0.5, (4094 - n) as f32 + 0.5);
        places.extend([
            (x, y.next_down()),
            (x.next_down(), y.next_up()),
            (x.next_up(), y),
        ]);
    }
    joined(random, (4096, 4096), &places, form)
}

/// A place of a kind on a side, at most its last pixel.
fn place(random: &mut Random, kind: usize, side: usize) -> f32 {
    let last = (side - 1) as f32;
    let whole = random.below(side) as f32;
    let half = whole + 0.5;
    let power = (1u32 << random.below(12)) as f32;
    let chosen = match kind {
        0 => half,
        1 => half.next_down(),
        2 => half.next_up(),
        3 => whole,
        4 => whole.next_up(),
        5 => (whole + 1.0).next_down(),
        6 => random.pick(&[power - 0.5, power + 0.5]),
        7 => random.pick(&[power - 0.5, power + 0.5]).next_down(),
        8 => BELOW_A_HALF,
        9 => random.pick(&[0.5, 0.5f32.next_up(), BELOW_A_HALF.next_down()]),
        10 => random.pick(&[0.0, -0.0, 1e-45, f32::MIN_POSITIVE]),
        11 => last,
        12 => random.pick(&[last - 0.5, (last - 0.5).next_down(), last.next_down()]),
        _ => random.between(0.0, f64::from(last)),
    };
    match chosen {
        above if above > last => last,
        below if below < 0.0 => 0.0,
        on => on,
    }
}

/// The key's row or col of a spot at a place: the pixel below or above it, which may be more than half a pixel off, or any.
fn own(random: &mut Random, place: f32, side: usize) -> usize {
    let any = random.below(side);
    random.pick(&[place.floor() as usize, place.ceil() as usize, any])
}

/// The join of records at these places, into just enough room.
fn joined(
    random: &mut Random,
    (rows, cols): (usize, usize),
    places: &[(f32, f32)],
    form: Form,
) -> Case {
    let set = sets::real(random);
    let mut list = Vec::new();
    for &(x, y) in places {
        let key = own(random, y, rows) * cols + own(random, x, cols);
        let record = records::at(random, &set.sigmas, key, x, y);
        list.extend_from_slice(&record[..form.spot]);
    }
    let room = form.needed(&list);
    form.join(set, (rows, cols), list, room, 0x77)
}
