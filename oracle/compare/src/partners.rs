//! What the reader of a partner's list is asked, counted: what it is refused for, what it finds and where.

use crate::judged::{Judge, due_of};
use crate::own::told;
use cases::partners::{INDEX, KEY, OCTAVE, POLARITY, key};
use cases::records::MOVED;
use cases::stores::LONGEST;
use cases::{Scene, Start};
use judge::{SPOT, Set, readable};
use std::collections::BTreeMap;
use subject::{Reading, Reply, Subject};

/// What a call may be refused for, in the order in which it is asked, and the number of each.
const CAUSES: [(&str, u32); 7] = [
    ("size", 1),
    ("level", 2),
    ("octave", 3),
    ("threshold", 8),
    ("set", 4),
    ("length", 5),
    ("record", 5),
];
const LENGTH: usize = 5;
const RECORD: usize = 6;

/// The findings by their numbers; 0 stands beside a refusal.
const FINDINGS: [&str; 5] = ["refused", "yes", "extra", "absent", "different"];

/// What is asked for beside the findings and the pairs of causes.
const SIGHTS: [&str; 25] = [
    "yes of no spot",
    "yes of one spot",
    "yes of several",
    "yes of both polarities at a pixel",
    "extra before the first",
    "extra between",
    "extra behind the last",
    "extra beside no due record",
    "extra by the polarity alone",
    "extra, the record before once more",
    "absent at the first",
    "absent between",
    "absent at the last",
    "absent at the list's end",
    "absent from no record",
    "absent by the polarity alone",
    "different at the first",
    "different between",
    "different at the last",
    "different by a zero's sign alone",
    "different, and others behind",
    "5 at the only difference",
    "5 at the first of several differences",
    "5 right behind the first difference",
    "5 far behind the first difference",
];

/// The bytes of a record that can be changed alone and leave it readable, at its key and its polarity.
fn loose(place: usize) -> bool {
    place < KEY || place == OCTAVE || place == INDEX || place >= MOVED
}

/// Which causes a call has.
type Causes = [bool; CAUSES.len()];

/// What a call is given.
#[derive(Clone, Copy)]
pub struct Given<'a> {
    pub start: &'a Start,
    pub levels: [&'a [f32]; 4],
    pub list: &'a [u8],
}

/// The first record of a list that is bad; where a side is above the longest, one that is so for every map.
fn first_bad(list: &[u8], start: &Start) -> Option<usize> {
    let long = start.rows > LONGEST || start.cols > LONGEST;
    let (rows, cols) = match long {
        true => (LONGEST, LONGEST),
        false => (start.rows, start.cols),
    };
    let mut records = list.chunks_exact(SPOT);
    records.position(|record| !readable(rows, cols, record))
}

/// All causes that a call has, whichever is answered.
fn causes(given: Given) -> Causes {
    let Given {
        start,
        levels,
        list,
    } = given;
    let pixels = start.rows.checked_mul(start.cols);
    [
        start.rows.max(start.cols) > LONGEST,
        levels.iter().any(|level| Some(level.len()) != pixels),
        start.octave > 5,
        start.thresholds.iter().any(|one| one.is_nan()),
        Set::from_record(&start.record).is_none(),
        list.len() % SPOT != 0,
        first_bad(list, start).is_some(),
    ]
}

/// The records of two lists that are the same from the front.
fn same(due: &[u8], list: &[u8]) -> usize {
    let bytes = due.iter().zip(list).take_while(|(one, other)| one == other);
    bytes.count() / SPOT
}

/// A record of a list.
fn record(list: &[u8], at: usize) -> Option<&[u8]> {
    list.chunks_exact(SPOT).nth(at)
}

/// The finding due and its index, by the places of the records in the order; a list that has ended has one behind all.
fn finding(due: &[u8], list: &[u8]) -> (u32, usize) {
    if due == list {
        return (1, 0);
    }
    let at = same(due, list);
    let place = |list: &[u8]| {
        record(list, at).map_or(u64::MAX, |record| {
            2 * u64::from(key(record)) + u64::from(record[POLARITY])
        })
    };
    let finding = match (place(list), place(due)) {
        (given, due) if given < due => 2,
        (given, due) if given > due => 3,
        _ => 4,
    };
    (finding, at)
}

/// What lists were answered, the pairs of causes that they had, what was found where, the single bytes that made a record another one, and the first list that
/// is not answered by the first of its causes.
#[derive(Default)]
pub struct Partners {
    lists: usize,
    records: usize,
    refusals: BTreeMap<u32, usize>,
    findings: [usize; FINDINGS.len()],
    pairs: [[usize; CAUSES.len()]; CAUSES.len()],
    sights: BTreeMap<&'static str, usize>,
    octaves: [usize; 6],
    bytes: BTreeMap<usize, usize>,
    farthest: u64,
    odd: Option<String>,
}

/// The judge's reader, counted.
impl Subject for Partners {
    fn name(&self) -> String {
        Judge::sound().name()
    }

    fn detect(&mut self, scene: &Scene, out: &mut [u8]) -> Option<Reply> {
        Judge::sound().detect(scene, out)
    }

    fn accept(&mut self, start: &Start, levels: [&[f32]; 4], list: &[u8]) -> Option<Reading> {
        let reading = Judge::sound().accept(start, levels, list)?;
        let given = Given {
            start,
            levels,
            list,
        };
        self.add(given, reading);
        Some(reading)
    }
}

impl Partners {
    /// Counts a call and its answer.
    pub fn add(&mut self, given: Given, reading: Reading) {
        let causes = causes(given);
        self.lists += 1;
        self.records += given.list.len() / SPOT;
        for (one, held) in causes.iter().enumerate() {
            for (other, both) in causes.iter().enumerate().skip(one + 1) {
                self.pairs[one][other] += usize::from(*held && *both);
            }
        }
        *self.refusals.entry(reading.number).or_default() += 1;
        let (of, list) = (given.start, given.list);
        let first = causes.iter().position(|&held| held);
        let due = match first {
            None | Some(LENGTH | RECORD) => due_of(of, given.levels),
            Some(_) => Vec::new(),
        };
        let by = match first {
            Some(LENGTH) => (0, list.len() / SPOT),
            Some(RECORD) => (0, first_bad(list, of).unwrap_or(0)),
            Some(_) => (0, 0),
            None => finding(&due, list),
        };
        let answer = Reading {
            number: first.map_or(0, |first| CAUSES[first].1),
            finding: by.0,
            value: by.1 as u64,
        };
        if reading != answer {
            let words = || format!("{of:?} {list:?}: {reading:?}, by its causes {answer:?}");
            self.odd.get_or_insert_with(words);
        }
        self.findings[by.0 as usize] += 1;
        match first {
            None => self.add_found(given, &due, by),
            Some(RECORD) => self.add_bad(list, &due, by.1),
            Some(_) => {}
        }
    }

    fn sight(&mut self, sight: &'static str, here: bool) {
        *self.sights.entry(sight).or_default() += usize::from(here);
    }

    /// Where a bad record stands; it is a difference itself, since none is due.
    fn add_bad(&mut self, list: &[u8], due: &[u8], bad: usize) {
        let at = same(due, list);
        let behind = list.chunks_exact(SPOT).zip(due.chunks_exact(SPOT));
        let several = list.len() != due.len() || behind.skip(at + 1).any(|(a, b)| a != b);
        self.sight("5 at the only difference", bad == at && !several);
        self.sight(
            "5 at the first of several differences",
            bad == at && several,
        );
        self.sight("5 right behind the first difference", bad == at + 1);
        self.sight("5 far behind the first difference", bad > at + 1);
    }

    /// What is found of a list that is not refused.
    fn add_found(&mut self, given: Given, due: &[u8], (finding, at): (u32, usize)) {
        let list = given.list;
        let (count, own) = (due.len() / SPOT, list.len() / SPOT);
        self.farthest = self.farthest.max(at as u64);
        let keys: Vec<u32> = due.chunks_exact(SPOT).map(key).collect();
        let shared = |at: usize| {
            let both = record(list, at).zip(keys.get(at));
            both.is_some_and(|(record, &due)| key(record) == due)
        };
        match finding {
            1 => {
                self.octaves[given.start.octave] += usize::from(count > 0);
                self.sight("yes of no spot", count == 0);
                self.sight("yes of one spot", count == 1);
                self.sight("yes of several", count > 1);
                let both = keys.windows(2).any(|two| two[0] == two[1]);
                self.sight("yes of both polarities at a pixel", both);
            }
            2 => {
                let again = at > 0 && record(list, at) == record(list, at - 1);
                self.sight("extra before the first", at == 0 && count > 0);
                self.sight("extra between", 0 < at && at < count);
                self.sight("extra behind the last", at == count && count > 0);
                self.sight("extra beside no due record", count == 0);
                self.sight("extra by the polarity alone", shared(at));
                self.sight("extra, the record before once more", again);
            }
            3 => {
                self.sight("absent at the first", at == 0 && own > 0);
                self.sight("absent between", 0 < at && at + 1 < count && at < own);
                self.sight("absent at the last", at + 1 == count && at < own);
                self.sight("absent at the list's end", at == own && own > 0);
                self.sight("absent from no record", own == 0);
                self.sight("absent by the polarity alone", shared(at));
            }
            _ => self.add_different(list, due, at),
        }
    }

    /// What is found of a record that is different.
    fn add_different(&mut self, list: &[u8], due: &[u8], at: usize) {
        let count = due.len() / SPOT;
        let (Some(one), Some(other)) = (record(list, at), record(due, at)) else {
            return;
        };
        let places: Vec<usize> = (0..SPOT).filter(|&k| one[k] != other[k]).collect();
        let zero = |place: usize| {
            place % 4 == 3
                && one[place] ^ other[place] == 128
                && other[place - 3..place] == [0; 3]
                && other[place] & 127 == 0
        };
        if let [place] = places[..] {
            *self.bytes.entry(place).or_default() += 1;
            self.sight("different by a zero's sign alone", zero(place));
        }
        self.sight("different at the first", at == 0);
        self.sight("different between", 0 < at && at + 1 < count);
        self.sight("different at the last", at + 1 == count);
        let behind = (at + 1..count).any(|k| record(list, k) != record(due, k));
        self.sight("different, and others behind", behind);
    }

    /// The first list that is not answered by the first of its causes.
    pub fn odd(&self) -> Option<String> {
        self.odd.clone()
    }

    /// How often each pair of causes was met.
    fn pairs(&self) -> impl Iterator<Item = (usize, usize, usize)> + '_ {
        let all = CAUSES.len();
        let pairs = (0..all).flat_map(move |one| (one + 1..all).map(move |other| (one, other)));
        pairs.map(|(one, other)| (one, other, self.pairs[one][other]))
    }

    /// The answers, the pairs of causes and what else no list has.
    pub fn not_reached(&self) -> Vec<String> {
        let mut all = Vec::new();
        let numbers = CAUSES.iter().map(|cause| cause.1);
        let missing = |number: &u32| !self.refusals.contains_key(number);
        all.extend(numbers.filter(missing).map(|number| number.to_string()));
        let unfound = FINDINGS.iter().zip(self.findings).filter(|one| one.1 == 0);
        all.extend(unfound.map(|one| one.0.to_string()));
        let apart = self.pairs().filter(|pair| pair.2 == 0);
        all.extend(
            apart.map(|(one, other, _)| format!("{} and {}", CAUSES[one].0, CAUSES[other].0)),
        );
        let unseen = |sight: &&&str| self.sights.get(*sight).is_none_or(|&count| count == 0);
        all.extend(SIGHTS.iter().filter(unseen).map(ToString::to_string));
        let octaves = (0..6).filter(|&octave| self.octaves[octave] == 0);
        all.extend(octaves.map(|octave| format!("yes in octave {octave}")));
        let bytes = (0..SPOT).filter(|&place| loose(place) && !self.bytes.contains_key(&place));
        all.extend(bytes.map(|place| format!("different in byte {place} alone")));
        all.dedup();
        all
    }

    /// Whether everything is reached and each list answered by the first of its causes.
    pub fn sound(&self) -> bool {
        let missed = self.not_reached();
        let missed = (!missed.is_empty()).then(|| format!("no partner's list has {missed:?}"));
        told(
            "every-answer-to-a-partner-is-reached",
            missed,
            "1, 2, 3, 8, 4 and 5, every two causes at once; yes, extra, absent and different, at either end and between; each byte alone",
        ) & told(
            "a-partner-is-answered-by-the-first-cause",
            self.odd(),
            "the sides, a level, the octave, a threshold, the set, the length, a record; else by the order of the first record that differs; with the value due",
        )
    }

    /// How often each answer was given.
    pub fn found(&self) -> String {
        let refusals = self.refusals.iter().filter(|one| *one.0 != 0);
        let refusals: Vec<String> = refusals
            .map(|(number, count)| format!("{count} with {number}"))
            .collect();
        let findings = FINDINGS.iter().zip(self.findings).skip(1);
        let findings: Vec<String> = findings
            .map(|(name, count)| format!("{count} {name}"))
            .collect();
        format!(
            "{} lists of {} records: {}, at record {} at most; refused {}",
            self.lists,
            self.records,
            findings.join(", "),
            self.farthest,
            refusals.join(", "),
        )
    }

    /// The same, and how often each pair of causes was met at least.
    pub fn told(&self) -> String {
        format!(
            "{}; {} pairs of causes, each at least {} times",
            self.found(),
            self.pairs().count(),
            self.pairs().map(|pair| pair.2).min().unwrap_or(0)
        )
    }

    /// The pairs of causes, and what was found where.
    pub fn print(&self) {
        let pairs: Vec<String> = self
            .pairs()
            .map(|(one, other, count)| format!("{} and {} {count}", CAUSES[one].0, CAUSES[other].0))
            .collect();
        println!("partners, two causes: {}", pairs.join(", "));
        let sights = self.sights.iter();
        let sights: Vec<String> = sights
            .map(|(sight, count)| format!("{sight} {count}"))
            .collect();
        println!("partners, {}", sights.join(", "));
        println!("partners, yes by the octave, 0 to 5: {:?}", self.octaves);
        let bytes = (0..SPOT).filter(|&place| loose(place));
        let counts = bytes.map(|place| self.bytes.get(&place).copied().unwrap_or(0));
        let least = counts.min().unwrap_or(0);
        println!("partners, each single byte makes a record different at least {least} times");
    }
}
