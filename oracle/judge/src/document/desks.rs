//! The table of sets that two desks share, document 02's No. 9: its eight slots read from the bytes and written back, the refusals in their order, and runs by
//! the detection that every map has.

use crate::entries::{detect, detection_refusal};
use crate::{Answer, Map, Pass, Rules, Set};

/// The bytes of a set record, the slots, the bytes of a table.
pub const RECORD: usize = 528;
pub const SLOTS: usize = 8;
pub const TABLE: usize = 4264;

/// Where the owners and the counts begin.
const OWNERS: usize = 4224;
const COUNTS: usize = 4232;

/// The owner of a slot that is free, and the two desks.
const FREE: usize = 0;
const DESKS: [usize; 2] = [1, 2];

/// A count that nothing is added to.
const LARGEST: u32 = u32::MAX;

/// What a slot holds.
#[derive(Clone, Copy, Debug, PartialEq, Eq)]
pub struct Slot {
    pub set: [u8; RECORD],
    pub owner: u8,
    pub count: u32,
}

/// A count by its bytes, the lowest first, and its bytes.
fn count_of(bytes: [u8; 4]) -> u32 {
    u32::from_le_bytes(bytes)
}
fn bytes_of(count: u32) -> [u8; 4] {
    count.to_le_bytes()
}

/// The slots that a table holds; None where its length is not a table's.
pub fn read(table: &[u8]) -> Option<[Slot; SLOTS]> {
    if table.len() != TABLE {
        return None;
    }
    Some(core::array::from_fn(|slot| Slot {
        set: core::array::from_fn(|k| table[RECORD * slot + k]),
        owner: table[OWNERS + slot],
        count: count_of(core::array::from_fn(|k| table[COUNTS + 4 * slot + k])),
    }))
}

/// Writes the slots into their table.
pub fn write_back(slots: &[Slot; SLOTS], table: &mut [u8]) {
    for (number, slot) in slots.iter().enumerate() {
        table[RECORD * number..][..RECORD].copy_from_slice(&slot.set);
        table[OWNERS + number] = slot.owner;
        table[COUNTS + 4 * number..][..4].copy_from_slice(&bytes_of(slot.count));
    }
}

/// What a desk asks of a slot.
#[derive(Clone, Copy, Debug)]
pub enum Call<'a> {
    Claim,
    Write(&'a [u8]),
    Release,
}

/// Why a desk's call is refused, the first that applies: 11, 12, 4.
fn refusal(slots: &[Slot; SLOTS], desk: usize, slot: usize, call: Call) -> Option<u32> {
    if !DESKS.contains(&desk) {
        return Some(11);
    }
    let Some(&Slot { owner, count, .. }) = slots.get(slot) else {
        return Some(11);
    };
    let (due, counted, record) = match call {
        Call::Claim => (FREE, true, None),
        Call::Write(record) => (desk, true, Some(record)),
        Call::Release => (desk, false, None),
    };
    if usize::from(owner) != due {
        return Some(11);
    }
    if counted && count == LARGEST {
        return Some(12);
    }
    if record.is_some_and(|record| Set::from_record(record).is_none()) {
        return Some(4);
    }
    None
}

/// A call that is not refused.
fn done(slot: &mut Slot, desk: usize, call: Call) {
    match call {
        Call::Claim => {
            slot.set = [0; RECORD];
            slot.owner = desk as u8;
            slot.count += 1;
        }
        Call::Write(record) => {
            slot.set.copy_from_slice(record);
            slot.count += 1;
        }
        Call::Release => slot.owner = FREE as u8,
    }
}

/// A desk's call on a table: 0, or a refusal's number, and then nothing is written.
pub fn called(table: &mut [u8], desk: usize, slot: usize, call: Call) -> u32 {
    let Some(mut slots) = read(table) else {
        return 11;
    };
    if let Some(number) = refusal(&slots, desk, slot, call) {
        return number;
    }
    done(&mut slots[slot], desk, call);
    write_back(&slots, table);
    0
}

/// The slot that a run finds, if a desk owns it.
fn owned(table: &[u8], slot: usize) -> Option<Slot> {
    let slots = read(table)?;
    let found = slots.get(slot)?;
    DESKS.contains(&found.owner.into()).then_some(*found)
}

/// Detection under the set that a slot holds at the call: 11, then detection's own refusals.
pub fn run(
    rules: Rules,
    pass: Pass,
    table: &[u8],
    slot: usize,
    map: Map,
    out: &mut [u8],
) -> Answer {
    let refused = |number| Answer::Refused { number, index: 0 };
    let Some(Slot { set, .. }) = owned(table, slot) else {
        return refused(11);
    };
    let good = Set::from_record(&set).is_some();
    if let Some(number) = detection_refusal(good, map) {
        return refused(number);
    }
    detect(rules, pass, &Set::unchecked(&set), map, out)
}
