//! The archive's stores by the million calls: long histories on a store beside an untouchable page, against the judge's; every length, every byte of a slot and
//! of a record, every pattern of free slots, slots and sides at their ends.

use crate::judged::Judge;
use crate::own::told;
use crate::stores::{Stores, in_words};
use cases::random::Random;
use cases::records::{SIZED, SPOT};
use cases::stores::{History, Kind, LONGEST, Pool, SIDES, free, mood, slots};
use cases::{Case, Keep, Keeping, Set, expand};
use std::time::Instant;
use subject::archive::Archive;
use subject::guarded::{Room, Side};
use subject::stores::called;
use subject::{Fed, Reply, Subject, turn, turn_back};

/// Apart from the families' own sources.
const SOURCE: u64 = 1 << 38;
/// Calls a time, and the calls of a history; a tenth of them on a store of thousands of slots.
const CALLS: usize = 3_000_000;
const LONG: usize = 500;
/// In how many histories one has thousands of slots.
const MANY: usize = 100;
/// A mood stays for so many calls.
const SPELL: usize = 25;
/// In how many closings up one is followed by the join of what it leaves.
const JOINED: usize = 16;
/// What stores hold at first, in turn: those on which most calls are refused come seldom.
const KINDS: [Kind; 9] = [
    Kind::New,
    Kind::Held,
    Kind::Full,
    Kind::Held,
    Kind::New,
    Kind::Full,
    Kind::Damaged,
    Kind::Zeros,
    Kind::Any,
];
/// Maps whose spots are records of histories, and how many spots they must have.
const MAPS: usize = 200;
const SPOTS: usize = 8;

/// What is lent to the archive's calls.
#[derive(Default)]
struct Rooms {
    store: Room,
    other: Room,
    spot: Room,
}

/// A store of the archive's, where it stays from call to call, and the judge's, with the room behind it.
struct Both<'a> {
    side: Side,
    other: &'a mut Room,
    spot: &'a mut Room,
    store: &'a mut [u8],
    sound: Vec<u8>,
}

impl<'a> Both<'a> {
    /// A store of whole slots and the room that it stands in, of which a call may be lent more or less than the store.
    fn new(side: Side, rooms: &'a mut Rooms, slots: usize, sound: Vec<u8>) -> Self {
        Both {
            side,
            other: &mut rooms.other,
            spot: &mut rooms.spot,
            store: rooms.store.lend(side, &sound[..SPOT * slots]),
            sound,
        }
    }

    /// The archive's call; on other bytes than the store's own it is given a copy, of which what it leaves goes back. Its answer, and whether it left `due`.
    fn called(&mut self, call: &Keeping, before: &[u8], due: &[u8]) -> (Fed, bool) {
        let spot = self.spot.lend(self.side, call.keep.spot());
        if call.lent == self.store.len() {
            turn(self.store, call);
            let fed = called(self.store, &call.keep, spot);
            return (fed, *self.store == *due);
        }
        let lent = self.other.lend(self.side, before);
        let fed = called(lent, &call.keep, spot);
        let own = lent.len().min(self.store.len());
        self.store[..own].copy_from_slice(&lent[..own]);
        (fed, *lent == *due)
    }

    /// One call of both, counted: where they part.
    fn step(&mut self, call: &Keeping, seen: &mut Stores) -> Result<Fed, String> {
        turn(&mut self.sound, call);
        let before = self.sound[..call.lent].to_vec();
        let lent = &mut self.sound[..call.lent];
        let sound = Judge::sound().store_call(lent, &call.keep);
        let due = lent.to_vec();
        let (fed, kept) = self.called(call, &before, &due);
        seen.add(&before, &call.keep, fed);
        let fault = if sound != Some(fed) {
            format!("{fed:?}, by the judge {sound:?}")
        } else if !kept {
            format!("{fed:?}, the store is not the judge's")
        } else {
            turn_back(&mut self.sound, call, fed);
            let own = self.store.len();
            self.store.copy_from_slice(&self.sound[..own]);
            return Ok(fed);
        };
        Err(format!("{}: {fault}", in_words(&call.keep, call.lent)))
    }
}

/// Records made for maps of each sides, and what detection lists of maps.
fn pools(seed: u64, archive: &mut Archive) -> Vec<Pool> {
    let random = &mut Random::new(seed, SOURCE, u64::MAX);
    let mut pools: Vec<Pool> = SIDES.map(|sides| Pool::new(random, sides, 48)).into();
    for number in 0..MAPS {
        let Case::Sized { scene } = expand("sized", seed, number) else {
            continue;
        };
        let mut list = vec![0; 2 * SPOT * scene.rows * scene.cols];
        if let Some(Reply::Done(count)) = archive.detect(&scene, &mut list)
            && count >= SPOTS
        {
            let spots = list[..SPOT * count].chunks_exact(SPOT);
            let spots = spots.map(<[u8]>::to_vec).collect();
            pools.push(Pool::of(random, (scene.rows, scene.cols), spots));
        }
    }
    pools
}

/// The join of what closing up leaves: as many records as were told, none of them refused.
fn joined(archive: &mut Archive, call: &Keeping, fed: Fed, store: &[u8]) -> Result<bool, String> {
    let Keep::CloseUp {
        sides: (rows, cols),
    } = call.keep
    else {
        return Ok(false);
    };
    if fed.number != 0 {
        return Ok(false);
    }
    let live = fed.value as usize;
    let mut out = vec![0; SIZED * live];
    match archive.join(&Set::t(), rows, cols, &store[..SPOT * live], &mut out) {
        Some(Reply::Done(count)) if count == live => Ok(true),
        other => Err(format!("the join of {live} spots: {other:?}")),
    }
}

/// One history: how many of its closings up were joined.
fn history(
    random: &mut Random,
    pools: &[&Pool],
    kind: Kind,
    (rooms, archive): (&mut Rooms, &mut Archive),
    seen: &mut Stores,
) -> Result<[usize; 2], String> {
    let count = slots(random, MANY);
    let side = random.pick(&[Side::Before, Side::Behind]);
    let store = pools[0].store(random, kind, count);
    let history = History {
        pools,
        slots: count,
        room: store.len(),
    };
    let mut both = Both::new(side, rooms, count, store);
    let calls = if count < 1000 { LONG } else { LONG / 10 };
    let (mut mood_now, mut joins) = (mood(random), 0);
    for place in 0..calls {
        if place % SPELL == SPELL - 1 {
            mood_now = mood(random);
        }
        let call = history.call(random, mood_now);
        let words = |words| format!("call {place}: {words}");
        let fed = both.step(&call, seen).map_err(words)?;
        if random.once_in(JOINED) {
            let found = joined(archive, &call, fed, &both.sound);
            joins += usize::from(found.map_err(words)?);
        }
    }
    Ok([calls, joins])
}

/// So many calls, history by history.
fn histories(seed: u64, calls: usize) -> bool {
    let begun = Instant::now();
    let mut archive = Archive::default();
    let pools = pools(seed, &mut archive);
    let mut rooms = Rooms::default();
    let (mut seen, mut first) = (Stores::default(), None);
    let (mut number, mut made, mut joins) = (0, 0, 0);
    while made < calls {
        let random = &mut Random::new(seed, SOURCE, number as u64);
        let [one, other, third] = [(); 3].map(|()| random.pick_of(&pools));
        let kind = KINDS[number % KINDS.len()];
        let lent = (&mut rooms, &mut archive);
        match history(random, &[one, other, third], kind, lent, &mut seen) {
            Ok([done, joined]) => (made, joins) = (made + done, joins + joined),
            Err(words) => {
                made += LONG;
                first.get_or_insert_with(|| format!("seed {seed}, history {number}, {words}"));
            }
        }
        number += 1;
    }
    let missed = seen.not_reached();
    let missed = (!missed.is_empty()).then(|| format!("no call has {missed:?}"));
    let seconds = begun.elapsed().as_secs_f64();
    let words = format!(
        "{number} histories of spots of {} maps, {}; {joins} closed stores joined, {seconds:.1} s",
        pools.len(),
        seen.told()
    );
    told("stores-histories", first.or(seen.odd()).or(missed), &words)
}

/// Calls on stores of their own, on either side of the page in turn; how many, and the first that parts from the judge's.
struct Each {
    rooms: Rooms,
    seen: Stores,
    calls: usize,
    first: Option<String>,
}

impl Each {
    /// A call on all of a store, which need not be whole slots.
    fn ask(&mut self, store: &[u8], keep: Keep) {
        let side = [Side::Before, Side::Behind][self.calls % 2];
        self.calls += 1;
        let (slots, sound) = (store.len() / SPOT, store.to_vec());
        let mut both = Both::new(side, &mut self.rooms, slots, sound);
        let call = Keeping {
            lent: store.len(),
            spoilt: None,
            keep,
        };
        if let Err(words) = both.step(&call, &mut self.seen) {
            self.first.get_or_insert(words);
        }
    }

    /// Each call on a store: adding this spot, striking this slot.
    fn four(&mut self, store: &[u8], sides: (usize, usize), spot: &[u8], slot: usize) {
        let spot = spot.to_vec();
        self.ask(store, Keep::Add { sides, spot });
        self.ask(store, Keep::Strike { sides, slot });
        self.ask(store, Keep::CloseUp { sides });
        self.ask(store, Keep::Clear);
    }

    /// The calls since so many.
    fn since(&self, calls: &mut usize) -> usize {
        let since = self.calls - *calls;
        *calls = self.calls;
        since
    }
}

/// Slots of a pool's spots, or free, by the bits of a number.
fn patterned(pool: &Pool, slots: usize, live: usize) -> Vec<u8> {
    let slot = |place: usize| match live >> place & 1 {
        0 => free(),
        _ => pool.good[place % pool.good.len()].clone(),
    };
    (0..slots).flat_map(slot).collect()
}

/// Every length to seven slots, and of a record to two.
fn lengths(each: &mut Each, pool: &Pool) {
    let (held, good) = (patterned(pool, 7, 0b0110101), &pool.good[0]);
    for length in 0..=held.len() {
        each.four(&held[..length], pool.sides, good, 0);
    }
    let long = good.repeat(3);
    for length in 0..=2 * SPOT {
        for store in [&held, &patterned(pool, 3, 0b111)] {
            let spot = long[..length].to_vec();
            let sides = pool.sides;
            each.ask(store, Keep::Add { sides, spot });
        }
    }
}

/// Every byte of a free slot and of a live one, at the first, the middle and the last of three slots, and of a record that is added.
fn bytes(each: &mut Each, pool: &Pool) {
    let good = &pool.good[1];
    for place in 0..SPOT {
        for value in 0..=u8::MAX {
            for slot in 0..3 {
                for live in [0b101, 0b010] {
                    let mut store = patterned(pool, 3, live);
                    store[SPOT * slot + place] = value;
                    each.four(&store, pool.sides, good, slot);
                }
            }
            let mut spot = good.clone();
            spot[place] = value;
            let sides = pool.sides;
            each.ask(&patterned(pool, 2, 0b01), Keep::Add { sides, spot });
        }
    }
}

/// Every pattern of free slots up to ten, each with every slot struck.
fn patterns(each: &mut Each, pool: &Pool) {
    for slots in 0..=10 {
        for live in 0..1 << slots {
            let store = patterned(pool, slots, live);
            for slot in 0..=slots + 1 {
                let sides = pool.sides;
                each.ask(&store, Keep::Strike { sides, slot });
            }
            each.four(&store, pool.sides, &pool.good[2], 0);
        }
    }
}

/// The numbers to 20, those around the longest side, and around every power of two.
fn ends() -> Vec<usize> {
    let mut all: Vec<usize> = (0..=20).chain(LONGEST - 2..=LONGEST + 2).collect();
    let powers = (5..64).map(|bits| 1usize << bits);
    all.extend(powers.flat_map(|power| [power - 1, power, power + 1]));
    all.push(usize::MAX);
    all
}

/// Slots and sides at their ends.
fn numbers(each: &mut Each, pool: &Pool) {
    let (held, empty) = (patterned(pool, 5, 0b10110), patterned(pool, 3, 0));
    for slot in ends() {
        let sides = pool.sides;
        each.ask(&held, Keep::Strike { sides, slot });
    }
    for rows in ends() {
        for cols in ends() {
            let (sides, spot) = ((rows, cols), pool.good[0].clone());
            each.ask(&held, Keep::CloseUp { sides });
            each.ask(&empty, Keep::Add { sides, spot });
        }
    }
}

/// Every length, byte, pattern and number, with each call.
fn each(seed: u64) -> bool {
    let begun = Instant::now();
    let random = &mut Random::new(seed, SOURCE, u64::MAX - 1);
    let pools = [(9, 10), (60, 60)].map(|sides| Pool::new(random, sides, 12));
    let mut each = Each {
        rooms: Rooms::default(),
        seen: Stores::default(),
        calls: 0,
        first: None,
    };
    let (mut calls, mut counts) = (0, [0; 4]);
    for pool in &pools {
        let parts = [lengths, bytes, patterns, numbers];
        for (part, count) in parts.into_iter().zip(&mut counts) {
            part(&mut each, pool);
            *count += each.since(&mut calls);
        }
    }
    let [lengths, bytes, patterns, numbers] = counts;
    let missed = each.seen.not_reached();
    let done = ["adding 0", "striking 0", "closing up 0", "clearing 0"];
    let hollow = missed.iter().find(|one| done.contains(&one.as_str()));
    let hollow = hollow.map(|one| format!("no call has {one}"));
    let seconds = begun.elapsed().as_secs_f64();
    let words = format!(
        "{lengths} calls of every length to 7 slots and of a record to two, {bytes} with every byte of a slot and of a record, {patterns} with every pattern of \
         free slots to 10, {numbers} with slots and sides at their ends, {seconds:.1} s"
    );
    told(
        "stores-of-every-length-byte-and-pattern",
        each.first.or(each.seen.odd()).or(hollow),
        &words,
    )
}

/// Histories by the million, then each length, byte, pattern and number.
pub fn run(seed: u64, times: usize) -> bool {
    histories(seed, CALLS * times) & each(seed)
}
