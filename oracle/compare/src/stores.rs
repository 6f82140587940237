//! What calls on a store are refused for, counted, and what they find and leave.

use crate::judged::Judge;
use crate::own::told;
use cases::stores::{LONGEST, MARK, POLARITY};
use cases::{Keep, Scene, Set};
use judge::{SPOT, readable};
use std::collections::BTreeMap;
use subject::{Fed, Reply, Subject};

/// The calls' names.
const CALLS: [&str; 4] = ["clearing", "adding", "striking", "closing up"];

/// What a call may be refused for, in the order in which it is asked, and the number of each.
const CAUSES: [(&str, u32); 6] = [
    ("size", 1),
    ("length", 5),
    ("slot", 5),
    ("record", 5),
    ("full", 6),
    ("no spot", 13),
];
const SIZE: usize = 0;
const LENGTH: usize = 1;
const BAD: usize = 2;
const RECORD: usize = 3;
const FULL: usize = 4;
const NO_SPOT: usize = 5;

/// The causes that each call can have.
const OF_CALL: [&[usize]; 4] = [
    &[LENGTH],
    &[SIZE, LENGTH, BAD, RECORD, FULL],
    &[SIZE, LENGTH, BAD, NO_SPOT],
    &[SIZE, LENGTH, BAD],
];

/// What is asked for beside the answers and the pairs of causes.
const SIGHTS: [&str; 14] = [
    "a damaged store cleared",
    "a spot added before another",
    "a spot added to the last slot",
    "spots moved down",
    "a closed store closed up",
    "5 for the first slot",
    "5 for a middle slot",
    "5 for the last slot",
    "5 for a marked slot",
    "5 for a record's length",
    "5 for a free slot's bytes",
    "13 at a free slot",
    "13 at the end",
    "13 past the end",
];

/// A call's place among their names.
fn place(keep: &Keep) -> usize {
    match keep {
        Keep::Clear => 0,
        Keep::Add { .. } => 1,
        Keep::Strike { .. } => 2,
        Keep::CloseUp { .. } => 3,
    }
}

/// A call in words, without its record.
#[cfg(feature = "archive")]
pub fn in_words(keep: &Keep, lent: usize) -> String {
    let of = match keep {
        Keep::Clear => String::new(),
        Keep::Add { sides, spot } => format!(" {} bytes for {sides:?}", spot.len()),
        Keep::Strike { sides, slot } => format!(" slot {slot} for {sides:?}"),
        Keep::CloseUp { sides } => format!(" for {sides:?}"),
    };
    format!("{}{of}, {lent} bytes lent", CALLS[place(keep)])
}

/// A slot of 48 bytes.
type Slot = [u8; SPOT];

fn marked(slot: &Slot) -> bool {
    slot[POLARITY] == MARK
}

fn free(slot: &Slot) -> bool {
    marked(slot) && slot.iter().map(|&byte| u32::from(byte)).sum::<u32>() == u32::from(MARK)
}

/// A store before a call: its slots, the bytes behind them, its first bad slot, the lowest free one and how many are.
struct Seen<'a> {
    slots: &'a [Slot],
    over: usize,
    bad: Option<usize>,
    lowest: Option<usize>,
    free: usize,
}

/// The store as it stands. Where a side is above the longest, a slot is told to be bad that is so for every map.
fn seen<'a>(store: &'a [u8], (rows, cols): (usize, usize)) -> Seen<'a> {
    let (slots, rest) = store.as_chunks::<SPOT>();
    let sound = |slot: &Slot| free(slot) || readable(rows, cols, slot);
    Seen {
        slots,
        over: rest.len(),
        bad: slots.iter().position(|slot| !sound(slot)),
        lowest: slots.iter().position(free),
        free: slots.iter().filter(|slot| free(slot)).count(),
    }
}

/// All causes that a call has, whichever is answered, and the answer due by the first of them.
fn due(keep: &Keep, store: &Seen, size: bool, (rows, cols): (usize, usize)) -> (Causes, Fed) {
    let count = store.slots.len();
    let mut causes = [false; CAUSES.len()];
    causes[LENGTH] = store.over > 0;
    causes[SIZE] = size;
    causes[BAD] = store.bad.is_some() && place(keep) > 0;
    let done = match keep {
        Keep::Clear => 0,
        Keep::Add { spot, .. } => {
            causes[RECORD] = spot.len() != SPOT || !readable(rows, cols, spot);
            causes[FULL] = store.free == 0;
            store.lowest.unwrap_or(0)
        }
        Keep::Strike { slot, .. } => {
            causes[NO_SPOT] = store.slots.get(*slot).is_none_or(free);
            0
        }
        Keep::CloseUp { .. } => count - store.free,
    };
    let first = causes.iter().position(|&held| held);
    let value = match first {
        None => done,
        Some(LENGTH | RECORD) => count,
        Some(BAD) => store.bad.unwrap_or(0),
        Some(_) => 0,
    };
    let due = Fed {
        number: first.map_or(0, |first| CAUSES[first].1),
        value: value as u64,
    };
    (causes, due)
}

/// Which causes a call has.
type Causes = [bool; CAUSES.len()];

/// What calls were answered, the pairs of causes that they had, what they found and left, the spots that detection listed for them and those that were joined
/// at last, the most slots, and the first call that is not answered by the first of its causes.
#[derive(Default)]
pub struct Stores {
    calls: usize,
    answers: [BTreeMap<u32, usize>; 4],
    pairs: [[[usize; CAUSES.len()]; CAUSES.len()]; 4],
    sights: BTreeMap<&'static str, usize>,
    listed: usize,
    joined: usize,
    most: usize,
    odd: Option<String>,
}

/// The records that detection lists, or a join sizes.
fn count_of(reply: Option<Reply>) -> usize {
    match reply {
        Some(Reply::Done(count)) => count,
        _ => 0,
    }
}

/// The judge's stores, counted.
impl Subject for Stores {
    fn name(&self) -> String {
        Judge::sound().name()
    }

    fn detect(&mut self, scene: &Scene, out: &mut [u8]) -> Option<Reply> {
        let reply = Judge::sound().detect(scene, out);
        self.listed += count_of(reply);
        reply
    }

    fn join(
        &mut self,
        set: &Set,
        rows: usize,
        cols: usize,
        list: &[u8],
        out: &mut [u8],
    ) -> Option<Reply> {
        let reply = Judge::sound().join(set, rows, cols, list, out);
        self.joined += count_of(reply);
        reply
    }

    fn store_call(&mut self, store: &mut [u8], keep: &Keep) -> Option<Fed> {
        let before = store.to_vec();
        let fed = Judge::sound().store_call(store, keep)?;
        self.add(&before, keep, fed);
        Some(fed)
    }
}

impl Stores {
    /// Counts a call on a store as it was before, and its answer.
    pub fn add(&mut self, store: &[u8], keep: &Keep, fed: Fed) {
        let of = place(keep);
        let sides = match keep {
            Keep::Clear => (0, 0),
            Keep::Add { sides, .. } | Keep::Strike { sides, .. } | Keep::CloseUp { sides } => {
                *sides
            }
        };
        let size = sides.0 > LONGEST || sides.1 > LONGEST;
        let sides = if size { (LONGEST, LONGEST) } else { sides };
        let store = seen(store, sides);
        let (causes, due) = due(keep, &store, size, sides);
        self.calls += 1;
        self.most = self.most.max(store.slots.len());
        *self.answers[of].entry(fed.number).or_default() += 1;
        for (one, held) in causes.iter().enumerate() {
            for (other, both) in causes.iter().enumerate().skip(one + 1) {
                self.pairs[of][one][other] += usize::from(*held && *both);
            }
        }
        if let Some(first) = causes.iter().position(|&held| held) {
            self.add_refused(keep, &store, first);
        } else {
            self.add_done(keep, &store);
        }
        if fed != due {
            let words = || format!("{} {keep:?}: {fed:?}, by its causes {due:?}", CALLS[of]);
            self.odd.get_or_insert_with(words);
        }
    }

    fn sight(&mut self, sight: &'static str, here: bool) {
        *self.sights.entry(sight).or_default() += usize::from(here);
    }

    /// What a call that is done finds.
    fn add_done(&mut self, keep: &Keep, store: &Seen) {
        let count = store.slots.len();
        let live = count - store.free;
        let lowest = store.lowest.unwrap_or(count);
        match keep {
            Keep::Clear => {
                // bad for every map
                let damaged = |slot: &Slot| !free(slot) && slot[POLARITY] > 1;
                self.sight("a damaged store cleared", store.slots.iter().any(damaged));
            }
            Keep::Add { .. } => {
                self.sight("a spot added before another", lowest < live);
                self.sight("a spot added to the last slot", lowest + 1 == count);
            }
            Keep::CloseUp { .. } => {
                self.sight("spots moved down", lowest < live);
                self.sight("a closed store closed up", lowest == live && live > 0);
            }
            Keep::Strike { .. } => {}
        }
    }

    /// What a call that is refused finds.
    fn add_refused(&mut self, keep: &Keep, store: &Seen, first: usize) {
        let last = store.slots.len().saturating_sub(1);
        match (first, keep) {
            (BAD, _) => {
                let bad = store.bad.unwrap_or(0);
                self.sight("5 for the first slot", bad == 0);
                self.sight("5 for a middle slot", 0 < bad && bad < last);
                self.sight("5 for the last slot", bad == last);
                self.sight("5 for a marked slot", marked(&store.slots[bad]));
            }
            (RECORD, Keep::Add { spot, .. }) => {
                self.sight("5 for a record's length", spot.len() != SPOT);
                let slot = Slot::try_from(spot.as_slice());
                self.sight(
                    "5 for a free slot's bytes",
                    slot.is_ok_and(|slot| free(&slot)),
                );
            }
            (NO_SPOT, Keep::Strike { slot, .. }) => {
                let count = store.slots.len();
                self.sight("13 at a free slot", *slot < count);
                self.sight("13 at the end", *slot == count);
                self.sight("13 past the end", *slot > count);
            }
            _ => {}
        }
    }

    /// The first call that is not answered by the first of its causes.
    pub fn odd(&self) -> Option<String> {
        self.odd.clone()
    }

    /// The answers, the pairs of causes and what else no call has.
    pub fn not_reached(&self) -> Vec<String> {
        let mut all = Vec::new();
        for (of, causes) in OF_CALL.iter().enumerate() {
            let numbers = causes.iter().map(|&cause| CAUSES[cause].1);
            let missing = |number: &u32| !self.answers[of].contains_key(number);
            all.extend(
                numbers
                    .chain([0])
                    .filter(missing)
                    .map(|number| format!("{} {number}", CALLS[of])),
            );
            for (place, &one) in causes.iter().enumerate() {
                for &other in &causes[place + 1..] {
                    if self.pairs[of][one][other] == 0 {
                        let (one, other) = (CAUSES[one].0, CAUSES[other].0);
                        all.push(format!("{} with {one} and {other}", CALLS[of]));
                    }
                }
            }
        }
        let unseen = |sight: &&&str| self.sights.get(*sight).is_none_or(|&count| count == 0);
        all.extend(SIGHTS.iter().filter(unseen).map(ToString::to_string));
        all.dedup();
        all
    }

    /// Whether every answer is reached and each call answered by the first of its causes.
    pub fn sound(&self) -> bool {
        let missed = self.not_reached();
        let missed = (!missed.is_empty()).then(|| format!("no call on a store has {missed:?}"));
        told(
            "every-answer-of-a-store-is-reached",
            missed,
            "clearing's 0 and 5, adding's 0, 1, 5 and 6, striking's 0, 1, 5 and 13, closing up's 0, 1 and 5; every two causes at once; slots at either end",
        ) & told(
            "a-store-is-answered-by-its-first-cause",
            self.odd(),
            "the sides, the length, a slot, the record, no free slot, no spot; with the value due",
        )
    }

    /// How often each answer was given, and how often each pair of causes was met at least.
    pub fn told(&self) -> String {
        let mut all = Vec::new();
        for (name, answers) in CALLS.iter().zip(&self.answers) {
            let given: Vec<String> = answers
                .iter()
                .map(|(number, count)| format!("{count} with {number}"))
                .collect();
            all.push(format!("{name} {}", given.join(", ")));
        }
        let pairs: Vec<usize> = OF_CALL
            .iter()
            .enumerate()
            .flat_map(|(of, causes)| self.pairs_of(of, causes))
            .collect();
        format!(
            "{} calls on up to {} slots: {}; {} pairs of causes, each at least {} times",
            self.calls,
            self.most,
            all.join("; "),
            pairs.len(),
            pairs.iter().min().unwrap_or(&0)
        )
    }

    /// How often a call had each pair of its causes.
    fn pairs_of<'a>(&'a self, of: usize, causes: &'a [usize]) -> impl Iterator<Item = usize> + 'a {
        let ordered = causes.iter().enumerate();
        ordered.flat_map(move |(place, &one)| {
            let others = causes[place + 1..].iter();
            others.map(move |&other| self.pairs[of][one][other])
        })
    }

    /// The pairs of causes, one line for each call that has several, and what calls found and left.
    pub fn print(&self) {
        for (name, pairs) in CALLS.iter().zip(&self.pairs).skip(1) {
            let mut all = Vec::new();
            for (one, others) in pairs.iter().enumerate() {
                for (other, count) in others.iter().enumerate().filter(|pair| *pair.1 > 0) {
                    all.push(format!("{} and {} {count}", CAUSES[one].0, CAUSES[other].0));
                }
            }
            println!("stores, two causes of {name}: {}", all.join(", "));
        }
        let sights = self.sights.iter();
        let sights: Vec<String> = sights
            .map(|(sight, count)| format!("{sight} {count}"))
            .collect();
        println!("stores, {}", sights.join(", "));
        let Stores { listed, joined, .. } = self;
        println!("stores, {listed} spots of detection, {joined} joined at last");
    }
}
