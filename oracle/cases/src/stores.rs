//! Histories of calls on a store of spots: clearing, adding, striking and closing up, refused ones among them.

use crate::case::{Case, Keep, Keeping, Scene};
use crate::desks::{chosen, small};
use crate::families::{self, full_of, without_nan};
use crate::random::Random;
use crate::records::{self, MOVED, OLD_SPOT, SIZED, SPOT};
use crate::sets::Set;

/// Where a record has its polarity, and what stands there in a free slot.
pub const POLARITY: usize = 38;
pub const MARK: u8 = 255;
/// The longest side.
pub const LONGEST: usize = 4096;

/// Rows and cols that records are made for.
pub const SIDES: [(usize, usize); 8] = [
    (9, 10),
    (60, 60),
    (30, 7),
    (7, 30),
    (1, LONGEST),
    (LONGEST, LONGEST),
    (1, 1),
    (12, 9),
];

/// The cases that go through all choices of five faults, two of eight cases each, and other histories between.
pub const ROUND: usize = 4 * FAULTS;
const FAULTS: usize = 1 << 5;

/// A free slot's bytes.
pub fn free() -> Vec<u8> {
    let mut slot = vec![0; SPOT];
    slot[POLARITY] = MARK;
    slot
}

/// Records made for one map, and such as no map of its sides has: bad in one field, or of another length.
pub struct Pool {
    pub sides: (usize, usize),
    pub good: Vec<Vec<u8>>,
    pub bad: Vec<Vec<u8>>,
}

impl Pool {
    /// So many of each.
    pub fn new(random: &mut Random, sides: (usize, usize), count: usize) -> Pool {
        let (rows, cols) = sides;
        let sigmas = Set::t().sigmas;
        let mut sound = || records::sound(random, &sigmas, rows, cols).to_vec();
        let good = (0..count).map(|_| sound()).collect();
        Pool::of(random, sides, good)
    }

    /// These records of a map, and as many bad ones made of them.
    pub fn of(random: &mut Random, sides: (usize, usize), good: Vec<Vec<u8>>) -> Pool {
        let spoil = |(number, record): (usize, &Vec<u8>)| spoilt(random, sides, number, record);
        Pool {
            bad: good.iter().enumerate().map(spoil).collect(),
            sides,
            good,
        }
    }

    /// A bad record, or a good one.
    fn record(&self, random: &mut Random, bad: bool) -> Vec<u8> {
        let of = if bad { &self.bad } else { &self.good };
        random.pick_of(of).clone()
    }

    /// The bytes of so many slots of a kind, and some behind.
    pub fn store(&self, random: &mut Random, kind: Kind, slots: usize) -> Vec<u8> {
        let mut store = Vec::new();
        for _ in 0..slots {
            let live = match kind {
                Kind::New => false,
                Kind::Full => true,
                Kind::Held | Kind::Damaged | Kind::Zeros | Kind::Any => random.once_in(2),
            };
            match live {
                true => store.extend(random.pick_of(&self.good)),
                false => store.extend(free()),
            }
        }
        if kind == Kind::Any {
            store
                .iter_mut()
                .for_each(|byte| *byte = random.word() as u8);
        }
        if kind == Kind::Zeros {
            store.fill(0);
        }
        if kind == Kind::Damaged && slots > 0 {
            let (place, bits) = unreadable(random, slots);
            store[place] ^= bits;
            let (slot, bad) = (slot_of(random, slots), self.record(random, true));
            if bad.len() == SPOT {
                store[SPOT * slot..][..SPOT].copy_from_slice(&bad);
            }
        }
        let behind = random.from_to(SPOT, 2 * SPOT);
        store.extend((0..behind).map(|_| random.word() as u8));
        store
    }
}

/// What a store holds at first.
#[derive(Clone, Copy, Debug, PartialEq, Eq)]
pub enum Kind {
    /// Free slots.
    New,
    /// Slots free or not.
    Held,
    /// No free slot.
    Full,
    /// Slots free or not, of which one or two can't be read, or hold a bad record.
    Damaged,
    /// Zeros, as new memory may be.
    Zeros,
    /// Any bytes.
    Any,
}

/// A record made bad: by the number in its displacement, in its length, as a free slot's bytes, or in another field.
fn spoilt(
    random: &mut Random,
    (rows, cols): (usize, usize),
    number: usize,
    good: &[u8],
) -> Vec<u8> {
    let mut record = good.to_vec();
    match number % 8 {
        0 => {
            let far = 0.6f32.next_up();
            let odd = random.pick(&[far, -far, 0.75, -1.0, f32::NAN, f32::INFINITY, f32::MIN]);
            let place = MOVED + 4 * random.below(2);
            record[place..place + 4].copy_from_slice(&odd.to_le_bytes());
        }
        1 => {
            let odd = random.pick(&[0, 1, OLD_SPOT, SPOT - 1, SPOT + 1, SIZED, 2 * SPOT]);
            record = good.repeat(2);
            record.truncate(odd);
        }
        2 => {
            record = random
                .pick_of(&[free(), vec![0; SPOT], vec![MARK; SPOT]])
                .clone()
        }
        _ => records::spoil(random, rows, cols, &mut record),
    }
    record
}

/// A byte of one of so many slots, and bits that make the slot unreadable for every map, whether it is free or not.
fn unreadable(random: &mut Random, slots: usize) -> (usize, u8) {
    let any = random.from_to(1, 255) as u8;
    let (place, bits) = random.pick(&[
        (35, 128),
        (36, 128),
        (37, 128),
        (POLARITY, 130),
        (39, any),
        (MOVED + 3, 64),
        (SPOT - 1, 64),
    ]);
    (SPOT * slot_of(random, slots) + place, bits)
}

/// A byte of a record and bits of it: the octave's, the index's, the polarity's or a sign half of the time.
fn anywhere(random: &mut Random) -> (usize, u8) {
    let any = random.from_to(1, 255) as u8;
    let place = random.below(SPOT);
    match random.once_in(2) {
        true => random.pick(&[
            (36, 2),
            (36, 3),
            (36, 6),
            (37, 3),
            (POLARITY, 254),
            (POLARITY, 255),
            (3, 128),
            (7, 128),
        ]),
        false => (place, random.pick(&[1, 2, 128, 254, 255, any])),
    }
}

/// One of so many slots, at least one: the first, the middle or the last one often.
fn slot_of(random: &mut Random, slots: usize) -> usize {
    let any = random.below(slots);
    random.pick(&[0, slots / 2, slots - 1, any, any, any])
}

/// A slot that a store of so many doesn't have, some of them one where the product by 48 comes round.
fn past(random: &mut Random, slots: usize) -> usize {
    let one = random.below(slots.max(1));
    let far = [
        slots,
        slots,
        slots + 1,
        slots + 255,
        (1 << 32) + one,
        (1 << 60) + one,
        (1 << 63) + one,
        usize::MAX,
    ];
    random.pick(&far)
}

/// Sides of which one is above 4,096.
fn too_long(random: &mut Random, (rows, cols): (usize, usize)) -> (usize, usize) {
    let side = random.pick(&[
        LONGEST + 1,
        LONGEST + 2,
        65536,
        1 << 32,
        1 << 63,
        usize::MAX,
    ]);
    random.pick(&[(side, cols), (rows, side), (side, side)])
}

/// How often a history's calls are adding: seldom, half of the time, or most often.
#[derive(Clone, Copy, Debug)]
pub enum Mood {
    Emptying,
    Mixed,
    Filling,
}

/// Calls on a store of so many slots, whose records are the first pool's.
pub struct History<'a> {
    pub pools: &'a [&'a Pool],
    pub slots: usize,
    /// The bytes that the store stands in.
    pub room: usize,
}

impl History<'_> {
    /// The sides of a call: those of the records most often, turned now and then, of another map, too long, or with a side of 0.
    fn sides(&self, random: &mut Random) -> (usize, usize) {
        let (rows, cols) = self.pools[0].sides;
        match random.below(40) {
            0 => (cols, rows),
            1 => random.pick(self.pools).sides,
            2 | 3 => too_long(random, (rows, cols)),
            4 => random.pick(&[(0, cols), (rows, 0), (0, 0)]),
            _ => (rows, cols),
        }
    }

    /// The bytes lent: the store's own most often.
    fn lent(&self, random: &mut Random) -> usize {
        let own = SPOT * self.slots;
        let any = random.below(self.room + 1);
        match random.below(16) {
            0 => random.pick(&[own + 1, own + SPOT - 1, own.saturating_sub(1), any, any]),
            1 if random.once_in(4) => SPOT * random.below(self.slots + 1),
            _ => own,
        }
    }

    /// A byte whose bits are turned for a call: of a slot that is lent, one in sixteen times; any bits, or such that the slot can't be read.
    fn damage(&self, random: &mut Random, lent: usize) -> Option<(usize, u8)> {
        let slots = lent / SPOT;
        if slots == 0 || !random.once_in(16) {
            return None;
        }
        if random.once_in(2) {
            return Some(unreadable(random, slots));
        }
        let (place, bits) = anywhere(random);
        Some((SPOT * slot_of(random, slots) + place, bits))
    }

    /// A call.
    pub fn call(&self, random: &mut Random, mood: Mood) -> Keeping {
        let (sides, lent) = (self.sides(random), self.lent(random));
        let [add, strike] = match mood {
            Mood::Emptying => [10, 58],
            Mood::Mixed => [30, 56],
            Mood::Filling => [50, 58],
        };
        let keep = match random.below(64) {
            0 => Keep::Clear,
            turn if turn <= add => {
                let of = match random.once_in(12) {
                    true => random.pick(self.pools),
                    false => self.pools[0],
                };
                let bad = random.once_in(5);
                let spot = of.record(random, bad);
                Keep::Add { sides, spot }
            }
            turn if turn <= strike => {
                let slot = match self.slots == 0 || random.once_in(12) {
                    true => past(random, self.slots),
                    false => random.below(self.slots),
                };
                Keep::Strike { sides, slot }
            }
            _ => Keep::CloseUp { sides },
        };
        Keeping {
            lent,
            spoilt: self.damage(random, lent),
            keep,
        }
    }
}

/// A mood.
pub fn mood(random: &mut Random) -> Mood {
    random.pick(&[Mood::Emptying, Mood::Mixed, Mood::Mixed, Mood::Filling])
}

/// How many slots a store has: few most often, thousands in one history of so many.
pub fn slots(random: &mut Random, many: usize) -> usize {
    if random.once_in(many) {
        return random.from_to(1000, 3000);
    }
    match random.below(8) {
        0 => random.below(4),
        1..5 => random.from_to(4, 12),
        _ => random.from_to(13, 70),
    }
}

/// Calls on a store of a kind; a damaged one is cleared after some.
fn lively(random: &mut Random, pools: &[&Pool], kind: Kind) -> Case {
    let slots = slots(random, 40);
    let store = pools[0].store(random, kind, slots);
    let history = History {
        pools,
        slots,
        room: store.len(),
    };
    let count = if slots < 100 {
        random.from_to(12, 60)
    } else {
        8
    };
    let mut mood_now = mood(random);
    let mut calls = Vec::new();
    for place in 0..count {
        if place % 16 == 15 {
            mood_now = mood(random);
        }
        let mut call = history.call(random, mood_now);
        if place == 5 && matches!(kind, Kind::Damaged | Kind::Zeros | Kind::Any) {
            (call.lent, call.keep) = (SPOT * slots, Keep::Clear);
        }
        calls.push(call);
    }
    let scene = None;
    Case::Stores {
        scene,
        store,
        calls,
    }
}

/// A map that detection takes: map M, a relation of it or one hardly larger; one of which every judged pixel is a spot; one with sides to 30.
fn map(random: &mut Random) -> Scene {
    let (rows, cols) = (random.from_to(9, 14), random.from_to(9, 14));
    let number = random.below(4);
    let mut scene = match random.below(4) {
        0 => small(random, number),
        1 => full_of(random, rows, cols),
        _ => families::lively(random),
    };
    scene.thresholds = without_nan(scene.thresholds);
    scene
}

/// A day: what detection lists of a map, added to a new store, then calls on it; it is closed up at last.
fn day(random: &mut Random) -> Case {
    let scene = map(random);
    let sides = (scene.rows, scene.cols);
    let pool = Pool::new(random, sides, 8);
    let slots = random.pick(&[0, 1, 5, 16, 30, 70]);
    let store = pool.store(random, Kind::New, slots);
    let history = History {
        pools: &[&pool],
        slots,
        room: store.len(),
    };
    let count = random.from_to(4, 20);
    let mut calls: Vec<Keeping> = (0..count)
        .map(|_| history.call(random, Mood::Emptying))
        .collect();
    calls.push(Keeping {
        lent: SPOT * slots,
        spoilt: None,
        keep: Keep::CloseUp { sides },
    });
    let scene = Some(scene);
    Case::Stores {
        scene,
        store,
        calls,
    }
}

/// Live slots before free ones, and bytes behind: full where no free one is lent.
fn live_first(random: &mut Random, pool: &Pool, live: usize, empty: usize) -> Vec<u8> {
    let mut store = pool.store(random, Kind::Full, live);
    let behind = store.split_off(SPOT * live);
    store.extend(free().repeat(empty));
    store.extend(behind);
    store
}

/// One of each call, with faults by the number: of the sides, the length, a slot; then a record that is bad, and a store without a free slot or a slot without a
/// spot.
fn faulty(random: &mut Random, pool: &Pool, turn: usize) -> Case {
    let [size, length, bad_slot, bad, last] = chosen(turn % FAULTS);
    let (live, empty) = (random.from_to(1, 5), random.from_to(1, 3));
    let store = live_first(random, pool, live, empty);
    let sides = match size {
        true => too_long(random, pool.sides),
        false => pool.sides,
    };
    let spot = pool.record(random, bad);
    let past = past(random, live + empty);
    let slot = match last {
        true => random.pick(&[live, live + empty - 1, past, past]),
        false => random.below(live),
    };
    let all = [
        Keep::Add { sides, spot },
        Keep::Strike { sides, slot },
        Keep::CloseUp { sides },
        Keep::Clear,
    ];
    let calls = all.map(|keep| {
        let full = last && matches!(keep, Keep::Add { .. });
        let slots = if full { live } else { live + empty };
        let over = match length {
            true => random.from_to(1, SPOT - 1),
            false => 0,
        };
        let (lent, spoilt) = (
            SPOT * slots + over,
            bad_slot.then(|| unreadable(random, slots)),
        );
        Keeping { lent, spoilt, keep }
    });
    let (scene, calls) = (None, calls.into());
    Case::Stores {
        scene,
        store,
        calls,
    }
}

/// The case of a number: of eight one each on a new store, one with free slots, a full one, a damaged one, one of any bytes or zeros, and one of detection's
/// spots; two with all choices of faults in turn.
pub fn history(random: &mut Random, number: usize) -> Case {
    let sides = random.pick(&SIDES);
    let other = random.pick(&SIDES);
    let pools = [sides, other].map(|sides| Pool::new(random, sides, 16));
    let pools = &[&pools[0], &pools[1]];
    match number % 8 {
        0 => lively(random, pools, Kind::New),
        1 => lively(random, pools, Kind::Held),
        2 => lively(random, pools, Kind::Full),
        3 => lively(random, pools, Kind::Damaged),
        4 => {
            let kind = random.pick(&[Kind::Any, Kind::Zeros]);
            lively(random, pools, kind)
        }
        5 => day(random),
        turn => faulty(random, pools[0], number / 8 * 2 + turn - 6),
    }
}
