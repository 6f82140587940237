//! Forged states by the million: the archive's answers against the contract's refusals, and some of them against the judge's.

use crate::judged::Judge;
use crate::own::told;
use cases::feeds::{COLS, POSITION, RING, ROWS, STATE, WAYS, forge, worst};
use cases::random::Random;
use cases::records::SPOT;
use cases::sets::RECORD;
use cases::{Case, Feed, Given, expand};
use std::time::Instant;
use subject::archive::Archive;
use subject::{Fed, Subject, take_column};

/// Apart from the families' own sources.
const SOURCE: u64 = 1 << 34;
/// How many calls of the family `forged` are altered again and again.
const POOL: usize = 3000;
/// The most rows of a call.
const TALLEST: usize = 24;
/// One call in so many is asked of the judge too.
const JUDGED: usize = 128;

/// Calls to alter: all of small maps, and those that list records.
struct Pool {
    all: Vec<(Feed, Given)>,
    listing: Vec<usize>,
}

impl Pool {
    /// The first calls of the family.
    fn new(seed: u64, archive: &mut Archive) -> Pool {
        let first = |number| match expand("forged", seed, number) {
            Case::Fed {
                mut feeds,
                mut given,
            } => Some((feeds.swap_remove(0), given.swap_remove(0))),
            _ => None,
        };
        let small = |(_, given): &(Feed, Given)| given.columns[0].len() <= TALLEST;
        let all: Vec<_> = (0..POOL).filter_map(first).filter(small).collect();
        let mut lists = |(feed, given): &(Feed, Given)| {
            let before = (feed.clone(), vec![0; worst(TALLEST)]);
            asked(archive, &before, given).0.value > 0
        };
        let listing = (0..all.len()).filter(|&call| lists(&all[call])).collect();
        Pool { all, listing }
    }

    /// One of them, half of the time one that lists records.
    fn pick(&self, random: &mut Random) -> (Feed, Given) {
        let listing = !self.listing.is_empty() && random.once_in(2);
        let call = match listing {
            true => random.pick(&self.listing),
            false => random.below(self.all.len()),
        };
        self.all[call].clone()
    }
}

/// Other bytes in a state: none most often, a few, or many; half of the time in its set alone.
fn scramble(random: &mut Random, state: &mut [u8]) {
    let end = random.pick(&[RECORD, STATE]).min(state.len());
    for _ in 0..random.pick(&[0, 0, 0, 0, 1, 2, 8, 64]) {
        if end > 0 {
            state[random.below(end)] = random.word() as u8;
        }
    }
}

/// Another number at one of the state's three places, near a place where an answer turns.
fn shift(random: &mut Random, state: &mut [u8]) {
    if state.len() < STATE || !random.once_in(6) {
        return;
    }
    let numbers = [ROWS, COLS, POSITION].map(|at| number(state, at));
    let near = (numbers[random.below(3)] + random.below(7)).saturating_sub(3);
    let far = random.pick(&[0, 4095, 4096, 4097, u32::MAX as usize, near]);
    let at = random.pick(&[ROWS, COLS, POSITION, POSITION, POSITION]);
    let value = if random.once_in(2) { near } else { far };
    state[at..at + 4].copy_from_slice(&(value as u32).to_le_bytes());
}

fn number(state: &[u8], at: usize) -> usize {
    u32::from_le_bytes(core::array::from_fn(|k| state[at + k])) as usize
}

/// A call of the pool, altered in its state, its pixels, its lengths and its room.
fn altered(random: &mut Random, pool: &Pool) -> (Feed, Given, Vec<u8>) {
    let (mut feed, mut given) = pool.pick(random);
    if feed.state.len() >= STATE && random.once_in(3) {
        let way = random.below(WAYS);
        forge(random, way, &mut feed.state);
    }
    scramble(random, &mut feed.state);
    shift(random, &mut feed.state);
    let rows = given.columns[0].len();
    for pixels in feed.ring.iter_mut().chain(&mut given.columns) {
        for _ in 0..random.pick(&[0, 0, 0, 1, 3]) {
            if !pixels.is_empty() {
                let at = random.below(pixels.len());
                pixels[at] = random.any();
            }
        }
    }
    if random.once_in(16) {
        let wrong = random.pick(&[rows + 1, rows.max(1) - 1, 0]);
        given.columns[random.below(4)].resize(wrong, 1.0);
    }
    if random.once_in(16) {
        let level = random.below(4);
        given.ring[level] = random.below(feed.ring[level].len() + 1);
    }
    given.state = feed.state.len();
    let room = [
        0,
        SPOT - 1,
        SPOT,
        SPOT + 1,
        2 * SPOT,
        worst(rows),
        worst(rows) + 7,
    ];
    let out = vec![random.word() as u8; random.pick(&room)];
    (feed, given, out)
}

/// The refusal that the contract fixes before the records are asked for.
fn refusal(feed: &Feed, given: &Given) -> Option<u32> {
    let state = &feed.state;
    if state.len() < STATE {
        return Some(9);
    }
    let [rows, cols, position] = [ROWS, COLS, POSITION].map(|at| number(state, at));
    if rows > 4096 || cols > 4096 || cols <= position {
        Some(9)
    } else if given.columns.iter().any(|column| column.len() != rows) {
        Some(2)
    } else if given.ring.iter().any(|&slice| slice < RING * rows) {
        Some(6)
    } else {
        None
    }
}

/// The most records that a call which isn't refused may list.
fn most(feed: &Feed) -> usize {
    let [rows, cols, position] = [ROWS, COLS, POSITION].map(|at| number(&feed.state, at));
    match position >= 6 && position + 2 < cols {
        true => 2 * rows.saturating_sub(8),
        false => 0,
    }
}

/// Whether two buffers hold the same patterns.
fn same(one: &[f32], other: &[f32]) -> bool {
    let pairs = one.iter().zip(other);
    one.len() == other.len() && pairs.into_iter().all(|(a, b)| a.to_bits() == b.to_bits())
}

/// Whether a call that was taken left what it should: the position one more, the column in its place, everything else as it was.
fn left_well(
    before: &(Feed, Vec<u8>),
    after: &(Feed, Vec<u8>),
    given: &Given,
    count: usize,
) -> bool {
    let (old, new) = (&before.0.state, &after.0.state);
    let [rows, position] = [ROWS, POSITION].map(|at| number(old, at));
    let counted = number(new, POSITION) == position + 1
        && old[..POSITION] == new[..POSITION]
        && old[POSITION + 4..] == new[POSITION + 4..];
    let (first, end) = (position % RING * rows, position % RING * rows + rows);
    let stored = (0..4).all(|level| {
        let (old, new) = (&before.0.ring[level], &after.0.ring[level]);
        same(&old[..first], &new[..first])
            && same(&given.columns[level], &new[first..end])
            && same(&old[end..], &new[end..])
    });
    counted && stored && before.1[SPOT * count..] == after.1[SPOT * count..]
}

/// Whether nothing was written.
fn untouched(before: &(Feed, Vec<u8>), after: &(Feed, Vec<u8>)) -> bool {
    let mut rings = before.0.ring.iter().zip(&after.0.ring);
    before.0.state == after.0.state
        && before.1 == after.1
        && rings.all(|(one, other)| same(one, other))
}

/// What is wrong with an answer by the contract alone; a call refused for its output is made again with room for the worst case.
fn fault(
    archive: &mut Archive,
    before: &(Feed, Vec<u8>),
    given: &Given,
    fed: Fed,
    after: &(Feed, Vec<u8>),
) -> Option<String> {
    let count = fed.value as usize;
    let due = refusal(&before.0, given);
    let sound = match (due, fed.number) {
        (Some(due), number) => number == due && count == 0 && untouched(before, after),
        (None, 0) => {
            count <= most(&before.0)
                && SPOT * count <= after.1.len()
                && left_well(before, after, given, count)
        }
        (None, 6) => count == 0 && untouched(before, after) && overfull(archive, before, given),
        _ => false,
    };
    (!sound).then(|| format!("{fed:?}, by the contract {due:?}"))
}

/// Whether a call lists more than its output holds, once there is room.
fn overfull(archive: &mut Archive, before: &(Feed, Vec<u8>), given: &Given) -> bool {
    let mut feed = before.0.clone();
    let mut out = vec![0; SPOT * most(&feed)];
    match take_column(archive, &mut feed, given, &mut out) {
        Some(Fed { number: 0, value }) => SPOT * value as usize > before.1.len(),
        _ => false,
    }
}

/// A call on copies: the answer, and what it left.
fn asked(
    subject: &mut dyn Subject,
    before: &(Feed, Vec<u8>),
    given: &Given,
) -> (Fed, (Feed, Vec<u8>)) {
    let (mut feed, mut out) = before.clone();
    let fed = take_column(subject, &mut feed, given, &mut out);
    (fed.expect("both offer it"), (feed, out))
}

/// `calls` altered calls of the pool.
pub fn run(seed: u64, calls: usize) -> bool {
    let begun = Instant::now();
    let (mut archive, mut judge) = (Archive::default(), Judge::sound());
    let pool = Pool::new(seed, &mut archive);
    let (mut answers, mut listed, mut judged, mut first) = ([0usize; 10], 0, 0, None);
    for number in 0..calls {
        let random = &mut Random::new(seed, SOURCE, number as u64);
        let (feed, given, out) = altered(random, &pool);
        let before = (feed, out);
        let (fed, after) = asked(&mut archive, &before, &given);
        answers[fed.number.min(9) as usize] += 1;
        listed += usize::from(fed.value > 0);
        let mut wrong = fault(&mut archive, &before, &given, fed, &after);
        if number % JUDGED == 0 {
            judged += 1;
            let (sound, left) = asked(&mut judge, &before, &given);
            let same = sound == fed && untouched(&left, &after);
            wrong = wrong.or((!same).then(|| format!("{fed:?}, by the judge {sound:?}")));
        }
        if let Some(words) = wrong {
            first.get_or_insert_with(|| format!("seed {seed}, call {number}: {words}"));
        }
    }
    let [done, _, two, _, _, _, six, _, _, nine] = answers;
    let seconds = begun.elapsed().as_secs_f64();
    let seen = format!(
        "{calls} calls: {done} taken, {listed} of them with records, refused {nine} times with 9, {two} with 2, {six} with 6; {judged} by the judge too, \
         {seconds:.1} s"
    );
    let hollow = (calls >= 1000 && [done, two, six, nine, listed].contains(&0))
        .then(|| "an answer that none of them has".to_string());
    told("forged", first.or(hollow), &seen)
}
