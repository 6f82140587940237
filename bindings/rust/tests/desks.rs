//! Two desks and their table of sets, request No. 9, through the archive.

mod common;
#[path = "common/histories.rs"]
mod histories;

use common::set_t;
use histories::{Random, Tally};
use std::collections::HashMap;
use uramsheg::{
    Desk, Map, NotYours, Owner, Refusal, SET_BYTES, SPOT_BYTES, Slot, Spot, TABLE_BYTES,
    TABLE_SLOTS, Table, Thresholds,
};

const THRESHOLDS: Thresholds = Thresholds {
    peak: 1.0,
    sigma: 1.0,
    ratio: 10.0,
    low: 1.9027314,
    high: 4.1498866,
};

const DESKS: [Desk; 2] = [Desk::Daily, Desk::Reprocessing];

/// Where a table's owner bytes begin, and its counts.
const OWNERS: usize = 4_224;
const COUNTS: usize = 4_232;

/// A float from 0 on, below 1.
fn part(random: &mut Random) -> f32 {
    random.below(1 << 24) as f32 / 16_777_216.0
}

/// The sets that desks write, by number: five that are good and list other places, one whose last byte is bad, zeros, and two of other lengths, which no slot
/// can hold.
const GOOD: usize = 5;
const ZEROS: usize = 6;
const SETS: usize = 9;

fn sets() -> Vec<Vec<u8>> {
    let moves = |part: f32| {
        let mut set = set_t();
        for block in [28, 73] {
            set[4 * (block + 27 + 4)..][..4].copy_from_slice(&part.to_le_bytes());
        }
        set
    };
    let mut sets: Vec<_> = [0.25, 0.21, 0.17, 0.13, 0.09].map(moves).into();
    let mut spoiled = set_t();
    spoiled[SET_BYTES - 1] = 1;
    sets.extend([spoiled, vec![0; SET_BYTES]]);
    sets.extend([set_t()[1..].to_vec(), [set_t(), vec![0]].concat()]);
    assert_eq!(sets.len(), SETS);
    sets
}

/// Map M's blob at some pixels of a map of 9 rows.
fn levels(cols: usize, blobs: &[usize]) -> [Vec<f32>; 4] {
    let mut levels = [0; 4].map(|_| vec![0.0; 9 * cols]);
    for col in blobs {
        levels[0][9 * col + 4] = 0.25;
        levels[1][9 * col + 4] = -0.25;
    }
    levels
}

fn map(levels: &[Vec<f32>; 4]) -> Map<'_> {
    Map {
        rows: 9,
        cols: levels[0].len() / 9,
        octave: 0,
        levels: levels.each_ref().map(Vec::as_slice),
    }
}

/// What a run may be asked, by number: map M, a map of two spots and one of none, then what detection refuses: a side, a level, an octave, a threshold.
struct Runs {
    levels: [[Vec<f32>; 4]; 3],
    /// What each lists under each set.
    due: Vec<Vec<Result<Vec<Spot>, Refusal>>>,
}

const RUNS: usize = 7;

impl Runs {
    fn new(sets: &[Vec<u8>]) -> Runs {
        let levels = [levels(10, &[4]), levels(13, &[4, 8]), levels(10, &[])];
        let due = Vec::new();
        let mut runs = Runs { levels, due };
        for run in 0..RUNS {
            let (thresholds, map) = runs.asked(run);
            let lists = sets
                .iter()
                .map(|set| uramsheg::spots(set, thresholds, map))
                .collect();
            runs.due.push(lists);
        }
        runs
    }

    fn asked(&self, run: usize) -> (Thresholds, Map<'_>) {
        let map = map(&self.levels[run % 3]);
        let mut levels = map.levels;
        levels[2] = &levels[2][1..];
        let nan = Thresholds {
            low: f32::NAN,
            ..THRESHOLDS
        };
        match run {
            3 => (nan, Map { rows: 4_097, ..map }),
            4 => (
                nan,
                Map {
                    octave: 6,
                    levels,
                    ..map
                },
            ),
            5 => (nan, Map { octave: 6, ..map }),
            6 => (nan, map),
            _ => (THRESHOLDS, map),
        }
    }
}

/// A call of a desk, or of anybody.
#[derive(Clone, Copy, Debug)]
enum Call {
    Claim(Desk, usize),
    Write(Desk, usize, usize),
    Release(Desk, usize),
    Run(usize, usize),
}

impl Call {
    /// A call with this desk; a slot is seldom none.
    fn some(random: &mut Random, desk: Desk) -> Call {
        let slot = match random.below(40) {
            0 => random.pick(&[8, 9, 256, 1 << 32, usize::MAX]),
            other => other % TABLE_SLOTS,
        };
        match random.below(8) {
            0 | 1 => Call::Claim(desk, slot),
            2 | 3 => Call::Write(desk, slot, random.below(SETS)),
            4 => Call::Release(desk, slot),
            _ => Call::Run(slot, random.below(RUNS)),
        }
    }

    fn slot(self) -> usize {
        match self {
            Call::Claim(_, slot)
            | Call::Write(_, slot, _)
            | Call::Release(_, slot)
            | Call::Run(slot, _) => slot,
        }
    }

    /// What a table answers: the spots of a run, None of any other.
    fn made(
        self,
        table: &mut Table,
        sets: &[Vec<u8>],
        runs: &Runs,
    ) -> Result<Option<Vec<Spot>>, Refusal> {
        match self {
            Call::Claim(desk, slot) => table.claim(desk, slot).map(|()| None),
            Call::Write(desk, slot, set) => table.write(desk, slot, &sets[set]).map(|()| None),
            Call::Release(desk, slot) => table.release(desk, slot).map(|()| None),
            Call::Run(slot, run) => {
                let (thresholds, map) = runs.asked(run);
                table.spots(slot, thresholds, map).map(Some)
            }
        }
    }
}

/// What a slot is to hold; its set by number.
#[derive(Clone, Copy, Debug, PartialEq)]
struct Held {
    owner: Owner,
    count: u32,
    set: usize,
}

/// A table as plain slots.
#[derive(Clone, Debug)]
struct Model {
    slots: [Held; TABLE_SLOTS],
}

impl Model {
    /// Slots of any owner, with counts that are low or near the largest.
    fn some(random: &mut Random) -> Model {
        let slots = [0; TABLE_SLOTS].map(|_| {
            let byte = random.pick(&[0, 0, 0, 0, 1, 2, 3, 255]);
            let count = random.below(12) as u32;
            Held {
                owner: Owner::from_byte(byte),
                count: random.pick(&[count, count, u32::MAX - count]),
                set: random.below(ZEROS + 1),
            }
        });
        Model { slots }
    }

    fn table(&self, sets: &[Vec<u8>]) -> Table {
        let byte = |held: Held| match held.owner {
            Owner::Free => 0,
            Owner::Desk(desk) => desk.number(),
            Owner::Nobody(byte) => byte,
        };
        let records = self.slots.iter().flat_map(|held| sets[held.set].clone());
        let counts = self.slots.iter().flat_map(|held| held.count.to_le_bytes());
        let bytes: Vec<u8> = records.chain(self.slots.map(byte)).chain(counts).collect();
        Table::from_bytes(&bytes).unwrap().clone()
    }

    /// The slot of a number where its owner is as asked; else why not.
    fn of(&mut self, slot: usize, asked: impl Fn(Owner) -> bool) -> Result<&mut Held, Refusal> {
        let Some(held) = self.slots.get_mut(slot) else {
            return Err(Refusal::NotYours(NotYours::Slot(slot)));
        };
        let owner = held.owner;
        match asked(owner) {
            true => Ok(held),
            false => Err(Refusal::NotYours(NotYours::Owner { slot, owner })),
        }
    }

    /// What a call is to answer, and to do.
    fn made(&mut self, call: Call, runs: &Runs) -> Result<Option<Vec<Spot>>, Refusal> {
        let is = |desk| move |owner| owner == Owner::Desk(desk);
        match call {
            Call::Claim(desk, slot) => {
                let held = self.of(slot, |owner| owner == Owner::Free)?;
                held.count = held.count.checked_add(1).ok_or(Refusal::Count)?;
                held.owner = Owner::Desk(desk);
                held.set = ZEROS;
            }
            Call::Write(desk, slot, set) => {
                let held = self.of(slot, is(desk))?;
                let count = held.count.checked_add(1).ok_or(Refusal::Count)?;
                if set >= GOOD {
                    return Err(Refusal::Set);
                }
                (held.set, held.count) = (set, count);
            }
            Call::Release(desk, slot) => self.of(slot, is(desk))?.owner = Owner::Free,
            Call::Run(slot, run) => {
                let held = self.of(slot, |owner| matches!(owner, Owner::Desk(_)))?;
                return runs.due[run][held.set].clone().map(Some);
            }
        }
        Ok(None)
    }

    /// Whether a table holds what it is to.
    fn is_in(&self, table: &Table, sets: &[Vec<u8>]) -> bool {
        let is_same = |(slot, held): (Slot<'_>, &Held)| {
            (slot.owner, slot.count) == (held.owner, held.count)
                && slot.set[..] == sets[held.set][..]
        };
        table.slots().zip(&self.slots).all(is_same)
    }
}

/// What came of a call, in a word: to see that the histories come everywhere.
fn word(call: Call, answer: &Result<Option<Vec<Spot>>, Refusal>) -> String {
    let name = match call {
        Call::Claim(..) => "claim",
        Call::Write(..) => "write",
        Call::Release(..) => "release",
        Call::Run(..) => "run",
    };
    match answer {
        Ok(Some(spots)) => format!("{name} lists {}", spots.len()),
        Ok(None) => format!("{name} done"),
        Err(refusal) => format!("{name} refused {}", refusal.number()),
    }
}

#[test]
fn any_history_of_two_desks_is_that_of_plain_slots() {
    let sets = sets();
    let runs = Runs::new(&sets);
    let mut random = Random(1);
    let mut tally = Tally::default();
    for history in 0..2_000 {
        let mut model = match history % 4 {
            0 => Model {
                slots: [Held {
                    owner: Owner::Free,
                    count: 0,
                    set: ZEROS,
                }; TABLE_SLOTS],
            },
            _ => Model::some(&mut random),
        };
        let mut table = model.table(&sets);
        assert!(history % 4 != 0 || table == Table::new());
        for step in 0..200 {
            let desk = random.pick(&DESKS);
            let call = Call::some(&mut random, desk);
            let answer = call.made(&mut table, &sets, &runs);
            let due = model.made(call, &runs);
            assert_eq!(answer, due, "history {history}, call {step}: {call:?}");
            let holds = model.is_in(&table, &sets);
            assert!(holds, "history {history}, call {step}: {call:?}");
            tally.add(word(call, &answer));
        }
    }
    tally.assert_all(
        &[
            "claim done",
            "claim refused 11",
            "claim refused 12",
            "write done",
            "write refused 11",
            "write refused 12",
            "write refused 4",
            "release done",
            "release refused 11",
            "run lists 0",
            "run lists 1",
            "run lists 2",
            "run refused 11",
            "run refused 1",
            "run refused 2",
            "run refused 3",
            "run refused 8",
            "run refused 4",
        ],
        500,
    );
    assert_eq!(tally.0.len(), 18);
}

/// Two tables that were the same once, and what one desk does to both; the other desk's calls are others on each.
struct Beside {
    tables: [Table; 2],
    /// Whether the desk has a slot in both by the same claim, from the same count.
    has: [bool; TABLE_SLOTS],
}

impl Beside {
    fn new(model: &Model, desk: Desk, sets: &[Vec<u8>]) -> Beside {
        Beside {
            tables: [0; 2].map(|_| model.table(sets)),
            has: model.slots.map(|held| held.owner == Owner::Desk(desk)),
        }
    }

    /// The desk's call to both, and the word for what came of it where the slot is its own: then both answers are the same.
    fn call(&mut self, call: Call, sets: &[Vec<u8>], runs: &Runs) -> Option<String> {
        let slot = call.slot();
        let tables = self.tables.each_mut();
        let [one, two] = tables.map(|table| call.made(table, sets, runs));
        let has = self.has.get_mut(slot)?;
        if *has {
            assert_eq!(one, two, "{call:?}");
            *has = !matches!((call, &one), (Call::Release(..), Ok(_)));
            return Some(word(call, &one));
        }
        let is_claimed = matches!((call, one, two), (Call::Claim(..), Ok(_), Ok(_)));
        let [one, two] = self.tables.each_ref().map(|table| table.slot(slot));
        *has = is_claimed && one == two;
        None
    }

    /// Whether the desk's own slots hold the same in both.
    fn is_same(&self) -> bool {
        let [one, two] = &self.tables;
        (0..TABLE_SLOTS).all(|slot| !self.has[slot] || one.slot(slot) == two.slot(slot))
    }
}

#[test]
fn a_desks_own_slots_do_not_depend_on_the_other_desk() {
    let sets = sets();
    let runs = Runs::new(&sets);
    let mut random = Random(2);
    let mut tally = Tally::default();
    for history in 0..1_000 {
        let [desk, other] = [DESKS[history % 2], DESKS[1 - history % 2]];
        let mut beside = Beside::new(&Model::some(&mut random), desk, &sets);
        for _ in 0..200 {
            for table in &mut beside.tables {
                for _ in 0..random.below(3) {
                    let call = Call::some(&mut random, other);
                    // what it is answered is not the desk's to know
                    let _ = call.made(table, &sets, &runs);
                }
            }
            let call = Call::some(&mut random, desk);
            let came = beside.call(call, &sets, &runs);
            came.into_iter().for_each(|word| tally.add(word));
            assert!(beside.is_same(), "history {history}: {call:?}");
        }
    }
    tally.assert_all(
        &[
            "claim refused 11",
            "write done",
            "write refused 4",
            "write refused 12",
            "release done",
            "run lists 0",
            "run lists 1",
            "run lists 2",
            "run refused 4",
            "run refused 8",
        ],
        100,
    );
    assert!(!tally.0.contains_key("write refused 11"));
    assert!(!tally.0.contains_key("run refused 11"));
}

#[test]
fn a_slot_with_the_same_count_and_owner_has_the_same_set() {
    let sets = sets();
    let runs = Runs::new(&sets);
    let mut random = Random(3);
    let mut again = 0;
    for _ in 0..200 {
        let mut table = Model::some(&mut random).table(&sets);
        let mut seen = HashMap::new();
        for _ in 0..200 {
            for slot in table.slots() {
                let key = (slot.number, slot.owner, slot.count);
                let before = seen.insert(key, *slot.set);
                assert!(before.is_none_or(|set| set == *slot.set), "{slot:?}");
                again += usize::from(before.is_some());
            }
            let desk = random.pick(&DESKS);
            let _ = Call::some(&mut random, desk).made(&mut table, &sets, &runs);
        }
    }
    assert!(again > 100_000, "{again}");
}

#[test]
fn what_depends_on_the_other_desk_is_a_claim_and_a_run_from_its_slot() {
    let sets = sets();
    let levels = levels(10, &[4]);
    let mut table = Table::new();
    table.claim(Desk::Reprocessing, 5).unwrap();
    let owner = Owner::Desk(Desk::Reprocessing);
    let taken = Refusal::NotYours(NotYours::Owner { slot: 5, owner });
    assert_eq!(table.claim(Desk::Daily, 5), Err(taken));
    let places = [0, 1].map(|set| {
        table.write(Desk::Reprocessing, 5, &sets[set]).unwrap();
        table.spots(5, THRESHOLDS, map(&levels)).unwrap()[0].x
    });
    assert_eq!(places, [4.5, 4.42]);
    table.release(Desk::Reprocessing, 5).unwrap();
    assert_eq!(table.claim(Desk::Daily, 5), Ok(()));
}

#[test]
fn a_count_ends_at_the_largest() {
    let set = set_t();
    for slot in 0..TABLE_SLOTS {
        let mut bytes = *Table::new().as_bytes();
        let at = COUNTS + 4 * slot;
        bytes[at..at + 4].copy_from_slice(&(u32::MAX - 2).to_le_bytes());
        let table = Table::from_bytes_mut(&mut bytes).unwrap();
        let count = |table: &Table| table.slot(slot).unwrap().count;
        assert_eq!(table.claim(Desk::Daily, slot), Ok(()));
        assert_eq!(count(table), u32::MAX - 1);
        assert_eq!(table.write(Desk::Daily, slot, &set), Ok(()));
        assert_eq!(count(table), u32::MAX);
        // what is written stays, and is run from
        let before = table.clone();
        assert_eq!(
            table.write(Desk::Daily, slot, &set[1..]),
            Err(Refusal::Count)
        );
        assert_eq!(*table, before);
        let spots = table.spots(slot, THRESHOLDS, map(&levels(10, &[4])));
        assert_eq!(spots.map(|spots| spots.len()), Ok(1));
        assert_eq!(table.release(Desk::Daily, slot), Ok(()));
        assert_eq!(table.claim(Desk::Reprocessing, slot), Err(Refusal::Count));
        assert_eq!(count(table), u32::MAX);
        // it is free, but no claim would be granted
        assert_eq!(table.slot(slot).unwrap().owner, Owner::Free);
        assert_eq!(table.free_slot(), Some(usize::from(slot == 0)));
    }
}

#[test]
fn a_count_goes_over_its_bytes() {
    for count in [255, 65_535, 16_777_215, 305_419_895u32] {
        let mut bytes = *Table::new().as_bytes();
        bytes[COUNTS + 28..].copy_from_slice(&count.to_le_bytes());
        let table = Table::from_bytes_mut(&mut bytes).unwrap();
        table.claim(Desk::Daily, 7).unwrap();
        assert_eq!(table.slot(7).unwrap().count, count + 1);
        assert_eq!(bytes[COUNTS + 28..], (count + 1).to_le_bytes());
    }
}

#[test]
fn a_table_is_laid_out_as_the_header_says() {
    let set = set_t();
    let mut table = Table::new();
    assert_eq!(TABLE_BYTES, 4_264);
    assert_eq!(*table.as_bytes(), [0; TABLE_BYTES]);
    for _ in 0..2 {
        table.claim(Desk::Reprocessing, 6).unwrap();
        table.write(Desk::Reprocessing, 6, &set).unwrap();
        table.release(Desk::Reprocessing, 6).unwrap();
    }
    table.claim(Desk::Daily, 0).unwrap();
    table.claim(Desk::Reprocessing, 6).unwrap();
    table.write(Desk::Reprocessing, 6, &set).unwrap();
    let mut due = [0; TABLE_BYTES];
    due[6 * SET_BYTES..7 * SET_BYTES].copy_from_slice(&set);
    due[OWNERS] = 1;
    due[OWNERS + 6] = 2;
    due[COUNTS] = 1;
    due[COUNTS + 24] = 6;
    assert_eq!(*table.as_bytes(), due);
}

#[test]
fn a_table_is_of_its_own_length_alone() {
    for length in 0..=4_300 {
        let mut bytes = vec![0xa5; length];
        let due = match length {
            TABLE_BYTES => Ok(()),
            other => Err(Refusal::NotYours(NotYours::Table(other))),
        };
        assert_eq!(Table::from_bytes(&bytes).map(|_| ()), due);
        assert_eq!(Table::from_bytes_mut(&mut bytes).map(|_| ()), due);
        assert!(bytes.iter().all(|&byte| byte == 0xa5));
    }
}

#[test]
fn calls_on_a_lent_table_are_done_to_its_bytes_alone() {
    for start in 0..4 {
        let mut bytes = vec![0xa5; TABLE_BYTES + 4];
        bytes[start..][..TABLE_BYTES].fill(0);
        let table = Table::from_bytes_mut(&mut bytes[start..][..TABLE_BYTES]).unwrap();
        table.claim(Desk::Daily, 2).unwrap();
        table.write(Desk::Daily, 2, &set_t()).unwrap();
        let kept = table.clone();
        // what is kept goes its own way
        table.release(Desk::Daily, 2).unwrap();
        assert_eq!(kept.slot(2).unwrap().owner, Owner::Desk(Desk::Daily));
        let (before, rest) = bytes.split_at(start);
        let (own, behind) = rest.split_at(TABLE_BYTES);
        assert!(before.iter().chain(behind).all(|&byte| byte == 0xa5));
        let read = Table::from_bytes(own).unwrap();
        let held = read.slot(2).unwrap();
        assert_eq!((held.owner, held.count), (Owner::Free, 2));
        assert_eq!(held.set[..], set_t());
        assert!(std::ptr::eq(read.as_bytes().as_ptr(), own.as_ptr()));
    }
}

const STANDARD: &[u8] = include_bytes!("../../python/src/uramsheg/standard.set");

/// A table with a set in a slot.
fn written(desk: Desk, slot: usize, set: &[u8]) -> Table {
    let mut table = Table::new();
    table.claim(desk, slot).unwrap();
    table.write(desk, slot, set).unwrap();
    table
}

/// Random maps and thresholds: sides, levels, octave and thresholds all go where detection's go.
#[test]
fn a_run_lists_what_detection_lists() {
    let mut random = Random(4);
    let mut some = 0;
    for round in 0..300 {
        let slot = round % TABLE_SLOTS;
        let table = written(DESKS[round % 2], slot, STANDARD);
        let (rows, cols) = (20 + random.below(60), 20 + random.below(60));
        let levels = [0; 4].map(|_| -> Vec<f32> {
            let height = part(&mut random);
            let pixel = |_| height * (part(&mut random) - 0.5);
            (0..rows * cols).map(pixel).collect()
        });
        let map = Map {
            rows,
            cols,
            octave: random.below(6),
            levels: levels.each_ref().map(Vec::as_slice),
        };
        let thresholds = Thresholds {
            peak: part(&mut random) / 4.0,
            sigma: 3.0 * part(&mut random),
            ratio: 20.0 * part(&mut random),
            low: 2.0 * part(&mut random),
            high: 2.0 + 3.0 * part(&mut random),
        };
        let room = random.below(40 * SPOT_BYTES);
        let [mut out, mut due] = [0; 2].map(|_| vec![0xa5; room]);
        let found = table.run(slot, thresholds, map, &mut out);
        assert_eq!(
            found,
            uramsheg::detect(STANDARD, thresholds, map, &mut due),
            "round {round}"
        );
        assert_eq!(out, due);
        assert_eq!(
            table.spots(slot, thresholds, map),
            uramsheg::spots(STANDARD, thresholds, map)
        );
        assert_eq!(
            table.sized_spots(slot, thresholds, map),
            uramsheg::sized_spots(STANDARD, thresholds, map)
        );
        some += usize::from(found.unwrap() > 0);
    }
    assert!(some > 50, "{some} lists only have spots");
}

#[test]
fn sizes_come_by_the_slots_set() {
    let levels = levels(10, &[4]);
    let sets = sets();
    let mut table = written(Desk::Daily, 3, &sets[1]);
    table.claim(Desk::Reprocessing, 4).unwrap();
    let sized = |slot| table.sized_spots(slot, THRESHOLDS, map(&levels));
    assert_eq!(
        sized(3),
        uramsheg::sized_spots(&sets[1], THRESHOLDS, map(&levels))
    );
    assert_eq!(sized(3).unwrap()[0].size, Some(8.0f32.sqrt()));
    assert_eq!(sized(4), Err(Refusal::Set));
    assert_eq!(sized(5), Err(not_yours(5, Owner::Free)));
    assert_eq!(sized(8), Err(Refusal::NotYours(NotYours::Slot(8))));
}

#[test]
fn several_threads_run_from_one_table_at_once() {
    let levels = levels(13, &[4, 8]);
    let sets = sets();
    let mut table = written(Desk::Daily, 0, &sets[0]);
    table.claim(Desk::Reprocessing, 1).unwrap();
    table.write(Desk::Reprocessing, 1, &sets[1]).unwrap();
    let due = [0, 1].map(|set| uramsheg::spots(&sets[set], THRESHOLDS, map(&levels)).unwrap());
    assert_ne!(due[0], due[1]);
    std::thread::scope(|scope| {
        for thread in 0..4 {
            let (table, due, map) = (&table, &due[thread % 2], map(&levels));
            scope.spawn(move || {
                for _ in 0..200 {
                    assert_eq!(table.spots(thread % 2, THRESHOLDS, map).as_ref(), Ok(due));
                }
            });
        }
    });
}

fn not_yours(slot: usize, owner: Owner) -> Refusal {
    Refusal::NotYours(NotYours::Owner { slot, owner })
}

#[test]
fn an_owner_byte_of_neither_desk_is_nobodys() {
    for byte in 0..=255 {
        let mut bytes = *written(Desk::Daily, 3, &set_t()).as_bytes();
        bytes[OWNERS + 3] = byte;
        let table = Table::from_bytes_mut(&mut bytes).unwrap();
        let owner = table.slot(3).unwrap().owner;
        let before = table.clone();
        let refused = Err(not_yours(3, owner));
        if byte > 2 {
            assert_eq!(owner, Owner::Nobody(byte));
            for desk in DESKS {
                assert_eq!(table.claim(desk, 3), refused);
                assert_eq!(table.write(desk, 3, &set_t()), refused);
                assert_eq!(table.release(desk, 3), refused);
            }
            let run = table.run(3, THRESHOLDS, map(&levels(10, &[4])), &mut []);
            assert_eq!(run.map(|_| ()), refused);
            assert_eq!(*table, before);
        } else {
            let due = [Owner::Free, Owner::Desk(DESKS[0]), Owner::Desk(DESKS[1])];
            assert_eq!(owner, due[usize::from(byte)]);
        }
    }
}

#[test]
fn slots_are_eight() {
    let mut table = Table::new();
    for (slot, desk) in (0..TABLE_SLOTS).zip(DESKS.into_iter().cycle()) {
        assert_eq!(table.free_slot(), Some(slot));
        table.claim(desk, slot).unwrap();
    }
    assert_eq!(table.free_slot(), None);
    let owners: Vec<_> = table
        .slots()
        .map(|slot| (slot.number, slot.owner))
        .collect();
    assert_eq!(owners.len(), TABLE_SLOTS);
    assert_eq!(owners[7], (7, Owner::Desk(Desk::Reprocessing)));
    for slot in [8, 16, 1 << 32, 1 << 60, usize::MAX] {
        let before = table.clone();
        let refused = Err(Refusal::NotYours(NotYours::Slot(slot)));
        assert_eq!(table.slot(slot), None);
        assert_eq!(table.claim(Desk::Daily, slot), refused);
        assert_eq!(table.write(Desk::Daily, slot, &set_t()), refused);
        assert_eq!(table.release(Desk::Daily, slot), refused);
        let run = table.run(slot, THRESHOLDS, map(&levels(10, &[4])), &mut []);
        assert_eq!(run.map(|_| ()), refused);
        assert_eq!(table, before);
    }
    table.release(Desk::Reprocessing, 5).unwrap();
    assert_eq!(table.free_slot(), Some(5));
}

#[test]
fn the_refusals_of_a_table_say_what_is_wrong_and_what_to_do() {
    let set = set_t();
    let mut table = written(Desk::Daily, 0, &set);
    let words = |answer: Result<(), Refusal>| answer.unwrap_err().to_string();
    for (said, due) in [
        (
            words(table.claim(Desk::Reprocessing, 0)),
            "slot 0 is the daily desk's: it alone can write it or give it back; claim a free slot",
        ),
        (
            words(table.write(Desk::Reprocessing, 0, &set)),
            "slot 0 is the daily desk's",
        ),
        (
            words(table.release(Desk::Reprocessing, 0)),
            "slot 0 is the daily desk's",
        ),
        (
            words(table.write(Desk::Daily, 1, &set)),
            "slot 1 is free: claim it",
        ),
        (
            words(table.claim(Desk::Daily, 9)),
            "there is no slot 9: a table has the slots 0 to 7",
        ),
        (
            words(Table::from_bytes(&set).map(|_| ())),
            "a table is 4264 bytes long, and what is lent 528",
        ),
        (
            not_yours(4, Owner::Nobody(7)).to_string(),
            "slot 4 has the owner byte 7, which is nobody's: use another slot",
        ),
        (
            Refusal::Count.to_string(),
            "the slot's write count is 4294967295, the largest: use another slot",
        ),
    ] {
        assert!(said.starts_with(due), "{said}");
    }
    assert!(Refusal::Set.to_string().contains("only once it is written"));
    let unsaid = Refusal::NotYours(NotYours::Unsaid);
    assert_eq!(Refusal::from_number(11, 0), Some(unsaid));
    assert_eq!(Refusal::from_number(12, 0), Some(Refusal::Count));
    assert_eq!((unsaid.number(), Refusal::Count.number()), (11, 12));
}

#[test]
fn a_table_shows_its_owners_and_counts() {
    let table = written(Desk::Reprocessing, 2, &set_t());
    let shown = format!("{table:?}");
    let slot = "Slot { number: 2, owner: Desk(Reprocessing), count: 2, .. }";
    assert!(shown.contains(slot), "{shown}");
    assert!(shown.len() < 1_000, "{shown}");
}
