//! A partner's list beside the due one, document 02's No. 11: the refusals in their order, then both lists record by record.

use crate::entries::{detect, detection_refusal};
use crate::record::{SPOT, key, readable};
use crate::{Answer, Map, Pass, Rules, Set};
use core::cmp::Ordering;

/// A record's bytes.
pub type Record = [u8; SPOT];

/// What the reader answers: a refusal, yes, or what it finds at the first record that differs.
#[derive(Clone, Copy, PartialEq, Eq, Debug)]
pub enum Reading {
    Refused { number: u32, index: usize },
    Yes,
    Extra(usize),
    Absent(usize),
    Different(usize),
}

/// Demand 2's list of a map that is not refused.
pub fn due(rules: Rules, pass: Pass, set: &Set, map: Map) -> Vec<Record> {
    let mut out = vec![[0; SPOT]; 2 * map.rows * map.cols];
    match detect(rules, pass, set, map, out.as_flattened_mut()) {
        Answer::Done(count) => out.truncate(count),
        Answer::Refused { .. } => out.clear(),
    }
    out
}

/// A list's records, for these sides; why it is none, the first that applies: 5 for its length, 5 for a record.
fn records(list: &[u8], rows: usize, cols: usize) -> Result<&[Record], Reading> {
    let refused = |index| Err(Reading::Refused { number: 5, index });
    let (records, rest) = list.as_chunks();
    if !rest.is_empty() {
        return refused(records.len());
    }
    let bad = |record: &Record| !readable(rows, cols, record);
    match records.iter().position(bad) {
        Some(index) => refused(index),
        None => Ok(records),
    }
}

/// What decides a list's order: the key, then the polarity.
fn order(record: &Record) -> (usize, u8) {
    (key(record), record[38])
}

/// Both lists from the front, up to the first place where they are not the same.
pub fn compared(due: &[Record], given: &[Record]) -> Reading {
    let mut at = 0;
    loop {
        match (due.get(at), given.get(at)) {
            (None, None) => return Reading::Yes,
            (None, Some(_)) => return Reading::Extra(at),
            (Some(_), None) => return Reading::Absent(at),
            (Some(one), Some(other)) if one == other => at += 1,
            (Some(one), Some(other)) => {
                return match order(other).cmp(&order(one)) {
                    Ordering::Less => Reading::Extra(at),
                    Ordering::Greater => Reading::Absent(at),
                    Ordering::Equal => Reading::Different(at),
                };
            }
        }
    }
}

/// The reader beside a list that is due if nothing is refused: 1, 2, 3, 8, 4, then 5.
pub fn read(
    record: &[u8],
    map: Map,
    list: &[u8],
    due: impl FnOnce(&Set) -> Vec<Record>,
) -> Reading {
    let set = Set::from_record(record);
    let refusal = detection_refusal(set.is_some(), map);
    let (None, Some(set)) = (refusal, set) else {
        let number = refusal.unwrap_or(4);
        return Reading::Refused { number, index: 0 };
    };
    match records(list, map.rows, map.cols) {
        Err(refusal) => refusal,
        Ok(given) => compared(&due(&set), given),
    }
}

/// Whether a list is demand 2's for these levels, this set, these thresholds and this octave.
pub fn accept(rules: Rules, pass: Pass, record: &[u8], map: Map, list: &[u8]) -> Reading {
    read(record, map, list, |set| due(rules, pass, set, map))
}
