//! Histories of two desks on one table of sets: claims, writes, releases and runs, refused ones among them.

use crate::case::{Ask, Asked, Case, Scene};
use crate::families::{damage, full_of, named, under, without_nan};
use crate::feeds::{bad_record, blank};
use crate::random::Random;
use crate::records::SPOT;
use crate::sets::{self, RECORD};

/// The bytes of a table, its slots, and where its owners and its counts begin.
pub const TABLE: usize = 4264;
pub const SLOTS: usize = 8;
pub const OWNERS: usize = 4224;
pub const COUNTS: usize = 4232;
/// The room that a table stands in.
pub const ROOM: usize = 4300;

/// The cases that go through all choices of faults: three calls with six faults, runs with eight, eight calls a case, and other histories between.
pub const ROUND: usize = 8 * RUN_FAULTS / SLOTS;
const FAULTS: usize = 1 << 6;
const RUN_FAULTS: usize = 1 << 8;

/// Small maps with sets of their own, under most of which they list something, and records to write, good and not.
pub struct Pool {
    scenes: Vec<Scene>,
    good: Vec<Vec<u8>>,
    bad: Vec<Vec<u8>>,
}

impl Pool {
    /// So many maps: document 01's map M, its relations, and others hardly larger.
    pub fn new(random: &mut Random, maps: usize) -> Pool {
        let scenes: Vec<Scene> = (0..maps).map(|map| small(random, map)).collect();
        let good = scenes.iter().map(|scene| scene.set.record().to_vec());
        Pool {
            good: good.collect(),
            bad: (0..maps).map(|_| bad_record(random)).collect(),
            scenes,
        }
    }

    /// A good record, half of the time with a float of any size in one place.
    fn good(&self, random: &mut Random) -> Vec<u8> {
        let mut record = self.good[random.below(self.good.len())].clone();
        if random.once_in(2) {
            let place = 4 * random.from_to(4, 117);
            let float = random.finite_pattern();
            record[place..place + 4].copy_from_slice(&float.to_le_bytes());
        }
        record
    }

    fn bad(&self, random: &mut Random) -> Vec<u8> {
        self.bad[random.below(self.bad.len())].clone()
    }

    /// What a slot's record may be: zeros, a good one, or any.
    fn held(&self, random: &mut Random) -> Vec<u8> {
        match random.below(4) {
            0 => vec![0; RECORD],
            1 | 2 => self.good(random),
            _ => {
                let mut record = self.bad(random);
                record.resize(RECORD, 0);
                record
            }
        }
    }

    /// A table of a kind, and bytes behind it.
    pub fn table(&self, random: &mut Random, kind: Kind) -> Vec<u8> {
        let mut table: Vec<u8> = (0..ROOM).map(|_| random.word() as u8).collect();
        if kind == Kind::Any {
            return table;
        }
        table[..TABLE].fill(0);
        if kind == Kind::New {
            return table;
        }
        for slot in 0..SLOTS {
            let owner = match kind {
                Kind::Owners => odd_owner(random),
                _ => random.below(3) as u8,
            };
            let count = match kind {
                Kind::Ends => u32::MAX - random.pick(&[0, 0, 1, 2, 3]),
                Kind::Borders => near_border(random),
                _ => random.below(9) as u32,
            };
            let set = self.held(random);
            put(&mut table, slot, Some(&set), owner, count);
        }
        table
    }

    /// A call, at one of these slots most often, and most often one that the slot's owner doesn't stand against; where a desk owns it one in so many is a run.
    pub fn call(&self, random: &mut Random, slots: &[usize], owners: &[u8], runs: usize) -> Asked {
        let slot = match random.below(12) {
            0 => odd_slot(random),
            1 | 2 => random.below(SLOTS),
            _ => random.pick(slots),
        };
        let owner = owners.get(slot).copied().unwrap_or(0);
        let fitting = !random.once_in(4);
        let desk = match (random.below(12), owner) {
            (0, _) => odd_desk(random),
            (_, 1 | 2) if fitting => owner.into(),
            _ => random.from_to(1, 2),
        };
        let lent = match random.below(12) {
            0 => odd_length(random),
            _ => TABLE,
        };
        let claims = match fitting {
            true => owner == 0,
            false => random.once_in(3),
        };
        let waits = fitting && owner != 1 && owner != 2;
        let ask = if !waits && random.once_in(runs) {
            let faults = core::array::from_fn(|_| random.once_in(12));
            self.run(random, faults)
        } else if claims {
            Ask::Claim { desk }
        } else if random.once_in(4) {
            Ask::Release { desk }
        } else {
            let record = match random.once_in(4) {
                true => self.bad(random),
                false => self.good(random),
            };
            Ask::Write { desk, record }
        };
        Asked { lent, slot, ask }
    }

    /// A run on one of the maps, with faults of sides, a level, the octave and the thresholds.
    fn run(&self, random: &mut Random, [size, level, octave, nan]: [bool; 4]) -> Ask {
        let mut scene = self.scenes[random.below(self.scenes.len())].clone();
        damage(random, &mut scene, [size, level, octave, false]);
        if nan {
            blank(random, &mut scene.thresholds);
        }
        Ask::Run {
            scene,
            room: random.pick(&[0, SPOT - 1, SPOT, SPOT + 1, 3 * SPOT, 40 * SPOT]),
            fill: random.word() as u8,
        }
    }
}

/// A small map by its number: map M first, then half of them its relations.
pub(crate) fn small(random: &mut Random, number: usize) -> Scene {
    let relation = if number == 0 { 0 } else { random.below(19) };
    let (rows, cols) = (random.from_to(9, 12), random.from_to(9, 12));
    let mut scene = match named(relation) {
        Some(scene) if number == 0 || random.once_in(2) => scene,
        _ if random.once_in(2) => full_of(random, rows, cols),
        _ => {
            let set = sets::real(random);
            under(random, set, rows, cols)
        }
    };
    scene.thresholds = without_nan(scene.thresholds);
    scene
}

/// What a table holds at first.
#[derive(Clone, Copy, Debug, PartialEq, Eq)]
pub enum Kind {
    /// Zeros.
    New,
    /// Slots of either desk or free, with low counts.
    Held,
    /// The same with counts at their end or shortly before it.
    Ends,
    /// The same with counts where a byte turns.
    Borders,
    /// Owner bytes of any value.
    Owners,
    /// Any bytes.
    Any,
}

/// Writes a slot's owner, its count and perhaps its set.
pub fn put(table: &mut [u8], slot: usize, set: Option<&[u8]>, owner: u8, count: u32) {
    if let Some(set) = set {
        table[RECORD * slot..][..RECORD].copy_from_slice(set);
    }
    table[OWNERS + slot] = owner;
    table[COUNTS + 4 * slot..][..4].copy_from_slice(&count.to_le_bytes());
}

/// An owner byte of any value, a small one or one beside a desk's most often.
fn odd_owner(random: &mut Random) -> u8 {
    let any = random.word() as u8;
    random.pick(&[0, 1, 2, 3, 4, 127, 128, 129, 130, 254, 255, any])
}

/// A count shortly before one of its bytes turns, or just behind.
fn near_border(random: &mut Random) -> u32 {
    let border = random.pick(&[1 << 8, 1 << 16, 1 << 24, 1u32 << 31, 1 << 12]);
    border - 3 + random.below(5) as u32
}

/// A desk that is none, some of them one by their lowest bytes.
fn odd_desk(random: &mut Random) -> usize {
    let one = random.from_to(1, 2);
    let far = [
        0,
        3,
        4,
        255,
        256,
        256 + one,
        (1 << 16) + one,
        (1 << 32) + one,
        (1 << 63) + one,
        usize::MAX,
    ];
    random.pick(&far)
}

/// A slot above 7, some of them one by their lowest bytes, or where a product by 528 comes round.
fn odd_slot(random: &mut Random) -> usize {
    let one = random.below(SLOTS);
    let far = [
        8,
        9,
        15,
        255,
        256 + one,
        (1 << 32) + one,
        (1 << 60) + one,
        (1 << 63) + one,
        usize::MAX,
    ];
    random.pick(&far)
}

/// A length that is no table's, but for one in many.
fn odd_length(random: &mut Random) -> usize {
    let any = random.below(ROOM + 1);
    let far = [
        0,
        RECORD,
        OWNERS,
        OWNERS + 1,
        COUNTS,
        TABLE - 4,
        TABLE - 1,
        TABLE - 1,
        TABLE + 1,
        TABLE + 1,
        TABLE + 4,
        ROOM,
        any,
    ];
    random.pick(&far)
}

/// One to three slots, so that a history's calls meet there.
fn few(random: &mut Random) -> Vec<usize> {
    let slots = random.from_to(1, 3);
    (0..slots).map(|_| random.below(SLOTS)).collect()
}

/// Calls on a table of a kind. Whose a slot is by now is guessed without its count.
fn lively(random: &mut Random, pool: &Pool, kind: Kind) -> Case {
    let table = pool.table(random, kind);
    let (slots, count) = (few(random), random.from_to(12, 48));
    let mut owners: [u8; SLOTS] = core::array::from_fn(|slot| table[OWNERS + slot]);
    let mut calls = Vec::new();
    for _ in 0..count {
        let call = pool.call(random, &slots, &owners, 3);
        if let Some(owner) = owners.get_mut(call.slot)
            && call.lent == TABLE
        {
            match call.ask {
                Ask::Claim { desk: 1 } if *owner == 0 => *owner = 1,
                Ask::Claim { desk: 2 } if *owner == 0 => *owner = 2,
                Ask::Release { desk } if desk == (*owner).into() => *owner = 0,
                _ => {}
            }
        }
        calls.push(call);
    }
    Case::Desks { table, calls }
}

/// Whether each of so many faults is chosen.
pub(crate) fn chosen<const N: usize>(choice: usize) -> [bool; N] {
    core::array::from_fn(|fault| choice >> fault & 1 == 1)
}

/// A byte that is another one.
fn other_owner(random: &mut Random, due: impl Fn(u8) -> bool) -> u8 {
    loop {
        let owner = odd_owner(random);
        if !due(owner) {
            return owner;
        }
    }
}

/// One call about each slot, with faults by the number: of the table's length, the desk, the slot, its owner, its count, the record. Where the desk is none, an
/// owner without fault is its lowest byte.
fn faulty(random: &mut Random, pool: &Pool, turn: usize) -> Case {
    let mut table = pool.table(random, Kind::Held);
    let mut calls = Vec::new();
    for slot in 0..SLOTS {
        let choice = SLOTS * turn + slot;
        let [length, none, past, owner, count, bad] = chosen(choice / 3 % FAULTS);
        let desk = match none {
            true => odd_desk(random),
            false => random.from_to(1, 2),
        };
        let record = match bad {
            true => pool.bad(random),
            false => pool.good(random),
        };
        let ask = match choice % 3 {
            0 => Ask::Claim { desk },
            1 => Ask::Write { desk, record },
            _ => Ask::Release { desk },
        };
        let due = if choice % 3 == 0 { 0 } else { desk as u8 };
        let owner = match owner {
            true => other_owner(random, |byte| byte == due),
            false => due,
        };
        let count = match count {
            true => u32::MAX,
            false => random.pick(&[0, 255, 65_535, u32::MAX - 1]),
        };
        put(&mut table, slot, None, owner, count);
        calls.push(strayed(random, [length, past], slot, ask));
    }
    Case::Desks { table, calls }
}

/// A call about a slot, on a table of another length or about a slot above 7 where that is a fault of it.
fn strayed(random: &mut Random, [length, past]: [bool; 2], slot: usize, ask: Ask) -> Asked {
    let far = match past {
        true => odd_slot(random),
        false => slot,
    };
    let wrong = match odd_length(random) {
        TABLE => TABLE + 1,
        wrong => wrong,
    };
    Asked {
        lent: if length { wrong } else { TABLE },
        slot: far,
        ask,
    }
}

/// One run from each slot, with faults by the number: of the table's length, the slot, its owner, then sides, a level, the octave, a threshold, the slot's set.
fn faulty_runs(random: &mut Random, pool: &Pool, turn: usize) -> Case {
    let mut table = pool.table(random, Kind::Held);
    let mut calls = Vec::new();
    for slot in 0..SLOTS {
        let choice = (SLOTS * turn + slot) % RUN_FAULTS;
        let [length, past, owner, size, level, octave, nan, bad] = chosen(choice);
        let owner = match owner {
            true => other_owner(random, |byte| byte == 1 || byte == 2),
            false => random.from_to(1, 2) as u8,
        };
        let mut set = match bad {
            true => pool.bad(random),
            false => pool.good(random),
        };
        if set.len() != RECORD {
            set = vec![0; RECORD];
        }
        put(&mut table, slot, Some(&set), owner, slot as u32);
        let ask = pool.run(random, [size, level, octave, nan]);
        calls.push(strayed(random, [length, past], slot, ask));
    }
    Case::Desks { table, calls }
}

/// The case of a number: two of eight on a new table, one each with counts at their end, where a byte turns, and with any owners; one on any table; one with
/// all choices of a desk's faults in turn, one of a run's.
pub fn history(random: &mut Random, number: usize) -> Case {
    let maps = random.from_to(3, 6);
    let pool = &Pool::new(random, maps);
    match number % 8 {
        2 => lively(random, pool, Kind::Ends),
        3 => lively(random, pool, Kind::Borders),
        4 => lively(random, pool, Kind::Owners),
        5 => {
            let kind = random.pick(&[Kind::Held, Kind::Held, Kind::Any]);
            lively(random, pool, kind)
        }
        6 => faulty(random, pool, number / 8),
        7 => faulty_runs(random, pool, number / 8),
        _ => lively(random, pool, Kind::New),
    }
}
