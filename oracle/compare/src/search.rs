//! Finds edges with the judge: the two neighbouring values of one float at which a spot or a size appears, or the cause of a missing one turns.

use crate::judged::{Judge, set_of};
use cases::edges::{self, PIXELS, SET, scene_float};
use cases::random::Random;
use cases::records::SPOT;
use cases::{Case, Knob, Scene};
use subject::{Reply, Subject, answer};

/// A float's place among all floats, in order.
fn rank(value: f32) -> i64 {
    let bits = i64::from(value.to_bits() & 0x7fff_ffff);
    if value.is_sign_negative() {
        -bits
    } else {
        bits
    }
}

fn at_rank(rank: i64) -> f32 {
    let size = f32::from_bits(rank.unsigned_abs() as u32);
    if rank < 0 { -size } else { size }
}

/// The neighbouring values between `held` and `lost` at which the test turns.
fn turning(held: f32, lost: f32, mut holds: impl FnMut(f32) -> bool) -> (f32, f32) {
    let (mut held, mut lost) = (rank(held), rank(lost));
    while (held - lost).abs() > 1 {
        let middle = (held + lost) / 2;
        if holds(at_rank(middle)) {
            held = middle;
        } else {
            lost = middle;
        }
    }
    (at_rank(held), at_rank(lost))
}

/// The keys and polarities that a scene lists.
pub fn listed(scene: &Scene) -> Vec<(u32, u8)> {
    let mut out = vec![0u8; 2 * SPOT * scene.rows * scene.cols];
    match Judge::sound().detect(scene, &mut out) {
        Some(Reply::Done(count)) => out[..SPOT * count]
            .chunks_exact(SPOT)
            .map(key_and_polarity)
            .collect(),
        _ => Vec::new(),
    }
}

fn key_and_polarity(record: &[u8]) -> (u32, u8) {
    (
        u32::from_le_bytes([record[32], record[33], record[34], record[35]]),
        record[38],
    )
}

/// A place to turn, with values that may lose the spot.
fn scene_place(random: &mut Random, scene: &mut Scene, key: u32) -> (usize, Vec<f32>) {
    let place = match random.below(10) {
        0..=2 => random.below(5),
        3 => SET + 4 + random.below(12),
        4..=6 => SET + 28 + random.below(90),
        _ => {
            let (row, col) = (key as usize / scene.cols, key as usize % scene.cols);
            let down = random.below(5) as isize - 2;
            let right = random.below(5) as isize - 2;
            let row = (row as isize + down) as usize;
            let col = (col as isize + right) as usize;
            PIXELS + random.below(4) * scene.rows * scene.cols + col * scene.rows + row
        }
    };
    let value = *scene_float(scene, place);
    (place, ways_out(random, value))
}

/// Values away from the present one, near and far, both ways.
fn ways_out(random: &mut Random, value: f32) -> Vec<f32> {
    let step = value.abs().max(1e-3);
    let mut ways = vec![
        value + step,
        value - step,
        value + 30.0 * step,
        value - 30.0 * step,
        0.0,
        f32::MAX,
        f32::MIN,
    ];
    let turn = random.below(ways.len());
    ways.rotate_left(turn);
    // A NaN made by arithmetic has no fixed sign: machines differ in it, and a bisection towards it goes by it.
    let negative = |way: f32| if way.is_nan() { -f32::NAN } else { way };
    ways.into_iter().map(negative).collect()
}

/// The knobs of both sides of some edges of the scene with this seed and number.
pub fn scene_edges(seed: u64, number: usize, tries: usize) -> Vec<Knob> {
    let random = &mut Random::new(seed, 200, number as u64);
    let mut scene = edges::scene(seed, number);
    let spots = listed(&scene);
    let mut knobs = Vec::new();
    if spots.is_empty() {
        return knobs;
    }
    for _ in 0..tries {
        let spot = random.pick(&spots);
        let (place, ways) = scene_place(random, &mut scene, spot.0);
        let value = *scene_float(&mut scene, place);
        let mut holds = |value: f32| {
            *scene_float(&mut scene, place) = value;
            listed(&scene).contains(&spot)
        };
        if let Some(&lost) = ways.iter().find(|&&way| !holds(way)) {
            let (inside, outside) = turning(value, lost, &mut holds);
            knobs.extend([inside, outside].map(|value| Knob {
                place: place as u32,
                value,
            }));
        }
        *scene_float(&mut scene, place) = value;
    }
    knobs
}

/// What is answered to a correction or a statistic.
#[derive(Clone, Copy, Debug, PartialEq, Eq, PartialOrd, Ord)]
pub enum Kind {
    Number,
    Cause(u8),
    BadSet,
}

/// The kind of the judge's answer to a correction or a statistic; of a set that is not good no statistic is asked.
pub fn kind(case: &Case) -> Kind {
    let (Case::Correct { set, .. } | Case::Inner { set, .. }) = case else {
        panic!("{case:?} has no cause");
    };
    if !set_of(set).good() {
        return Kind::BadSet;
    }
    let given = answer(&mut Judge::sound(), case).unwrap_or_default();
    match (case, &given[..]) {
        (Case::Correct { .. }, [0, ..]) => Kind::Number,
        (Case::Correct { .. }, [.., cause]) => Kind::Cause(*cause),
        (_, &[a, b, c, d]) => match f32::from_le_bytes([a, b, c, d]) {
            number if number >= 0.0 => Kind::Number,
            cause => Kind::Cause(-cause as u8),
        },
        _ => panic!("{given:?} answers {case:?}"),
    }
}

/// A float of a correction or a statistic: one of its own, or one of the set's that it is made with.
fn place(random: &mut Random, case: &Case) -> usize {
    match (random.below(3), case) {
        (0, Case::Inner { .. }) => SET + random.below(4),
        (_, Case::Inner { .. }) => random.below(4),
        (0, _) => random.below(5),
        (1, _) => SET + 16 + random.below(12),
        _ => SET + 118 + random.below(11),
    }
}

/// The knobs of both sides of some edges of a case: its own kind of answer, and another that is not left out.
fn kind_edges(
    random: &mut Random,
    case: &Case,
    tries: usize,
    left_out: &[Kind],
    ways: fn(&mut Random, f32) -> Vec<f32>,
) -> Vec<Knob> {
    let own = kind(case);
    let mut knobs = Vec::new();
    for _ in 0..tries {
        let place = place(random, case);
        let mut case = case.clone();
        let value = *edges::float(&mut case, place);
        let mut turned = |value: f32| {
            *edges::float(&mut case, place) = value;
            kind(&case)
        };
        let other = |kind: Kind| kind != own && !left_out.contains(&kind);
        let mut ways = ways(random, value).into_iter();
        if let Some(lost) = ways.find(|&way| other(turned(way))) {
            let (inside, outside) = turning(value, lost, |value| turned(value) == own);
            knobs.extend([inside, outside].map(|value| Knob {
                place: place as u32,
                value,
            }));
        }
    }
    knobs
}

/// The knobs of both sides of some edges of the correction with this seed and number, at which its size is lost.
pub fn size_edges(seed: u64, number: usize, tries: usize) -> Vec<Knob> {
    let random = &mut Random::new(seed, 201, number as u64);
    let case = edges::correction(seed, number);
    match kind(&case) {
        Kind::Number => kind_edges(random, &case, tries, &[], ways_out),
        _ => Vec::new(),
    }
}

/// Values away from the present one, the infinities and its negative among them.
fn all_ways(random: &mut Random, value: f32) -> Vec<f32> {
    let mut ways = ways_out(random, value);
    ways.extend([f32::INFINITY, f32::NEG_INFINITY, -value]);
    let turn = random.below(ways.len());
    ways.rotate_left(turn);
    ways
}

/// The knobs of both sides of some edges of a correction, at which two of its causes meet, or a cause and a size.
pub fn cause_edges(seed: u64, number: usize, tries: usize) -> Vec<Knob> {
    let random = &mut Random::new(seed, 202, number as u64);
    let case = edges::caused("cause-edge", seed, number);
    kind_edges(random, &case, tries, &[Kind::BadSet], all_ways)
}

/// The same of a statistic.
pub fn statistic_edges(seed: u64, number: usize, tries: usize) -> Vec<Knob> {
    let random = &mut Random::new(seed, 203, number as u64);
    let case = edges::caused("statistic-edge", seed, number);
    kind_edges(random, &case, tries, &[Kind::BadSet], all_ways)
}
