//! The archive's table of sets by the million calls: long histories of two desks on a table beside an untouchable page, against the judge's; every length of a
//! table, every owner byte, desks and slots from 0 on; and two desks apart.

use crate::desks::{Desks, apart, in_words};
use crate::judged::Judge;
use crate::own::told;
use cases::desks::{COUNTS, Kind, OWNERS, Pool, ROOM, SLOTS, TABLE, put};
use cases::families::named;
use cases::random::Random;
use cases::records::SPOT;
use cases::{Ask, Asked, Set};
use std::time::Instant;
use subject::archive::{Archive, lend_four};
use subject::desks::{called, called_run};
use subject::guarded::{Room, Side};
use subject::{Call, Fed, ask, output};

/// Apart from the families' own sources.
const SOURCE: u64 = 1 << 37;
/// Calls a time, the calls of a history, and in how many one is a run.
const CALLS: usize = 3_000_000;
const LONG: usize = 500;
const RUNS: usize = 30;
/// The tables that histories begin with, in turn: those on which most calls are refused come seldom.
const KINDS: [Kind; 12] = [
    Kind::New,
    Kind::Held,
    Kind::Borders,
    Kind::New,
    Kind::Held,
    Kind::Borders,
    Kind::Ends,
    Kind::New,
    Kind::Held,
    Kind::Borders,
    Kind::Owners,
    Kind::Any,
];
/// Histories that part by the other desk's calls, a time.
const APART: usize = 2000;
/// Desks and slots are tried up to this number.
const NUMBERS: usize = 1024;

/// What is lent beside a table.
#[derive(Default)]
struct Rooms {
    record: Room,
    levels: [Room; 4],
    out: Room,
}

impl Rooms {
    /// The C function's answer on a lent table, everything else a copy beside the page; a run's output goes back.
    fn call(&mut self, side: Side, table: &mut [u8], call: &Asked, out: &mut [u8]) -> Fed {
        let slot = call.slot;
        let number = match &call.ask {
            Ask::Claim { desk } => called(table, *desk, slot, Call::Claim),
            Ask::Write { desk, record } => {
                let record = self.record.lend(side, record);
                called(table, *desk, slot, Call::Write(record))
            }
            Ask::Release { desk } => called(table, *desk, slot, Call::Release),
            Ask::Run { scene, .. } => {
                let levels = scene.levels.each_ref().map(Vec::as_slice);
                let levels = lend_four(&mut self.levels, side, levels);
                let lent = self.out.lend(side, out);
                let seen = levels.each_ref().map(|level| &**level);
                let fed = called_run(table, slot, scene, seen, lent);
                out.copy_from_slice(lent);
                return fed;
            }
        };
        Fed { number, value: 0 }
    }
}

/// A table of the archive's, where it stays from call to call, and the judge's.
struct Both<'a> {
    side: Side,
    rooms: &'a mut Rooms,
    other: &'a mut Room,
    table: &'a mut [u8],
    sound: Vec<u8>,
}

impl<'a> Both<'a> {
    /// A table and the room that it stands in, of which a call may be lent more or less than the table.
    fn new(
        side: Side,
        rooms: &'a mut Rooms,
        [first, other]: &'a mut [Room; 2],
        sound: Vec<u8>,
    ) -> Self {
        Both {
            side,
            rooms,
            other,
            table: first.lend(side, &sound[..TABLE]),
            sound,
        }
    }

    /// One call of both, counted: where they part. A table of another length is a copy, made of what stands there.
    fn step(&mut self, call: &Asked, seen: &mut Desks) -> Result<(), String> {
        let (mut out, mut due) = (output(call), output(call));
        let before = &self.sound[..call.lent];
        let mut kept = true;
        let fed = if call.lent == TABLE {
            self.rooms.call(self.side, self.table, call, &mut out)
        } else {
            let lent = self.other.lend(self.side, before);
            let fed = self.rooms.call(self.side, lent, call, &mut out);
            kept = *lent == *before;
            fed
        };
        seen.add(before, call, fed);
        let sound = ask(&mut Judge::sound(), &mut self.sound, call, &mut due);
        kept &= *self.table == self.sound[..TABLE];
        let fault = if sound != Some(fed) {
            format!("{fed:?}, by the judge {sound:?}")
        } else if out != due {
            format!("{fed:?}, the output is not the judge's")
        } else if !kept {
            format!("{fed:?}, the table is not the judge's")
        } else {
            return Ok(());
        };
        Err(format!("{}: {fault}", in_words(call)))
    }
}

/// So many calls, history by history.
fn histories(seed: u64, calls: usize) -> bool {
    let begun = Instant::now();
    let pool = Pool::new(&mut Random::new(seed, SOURCE, u64::MAX), 40);
    let (mut rooms, mut tables) = <(Rooms, [Room; 2])>::default();
    let (mut seen, mut first) = (Desks::default(), None);
    let mut fault = |number: usize, call: usize, words: String| {
        first.get_or_insert_with(|| format!("seed {seed}, history {number}, call {call}: {words}"));
    };
    for number in 0..calls.div_ceil(LONG) {
        let random = &mut Random::new(seed, SOURCE, number as u64);
        let kind = KINDS[number % KINDS.len()];
        let side = random.pick(&[Side::Before, Side::Behind]);
        let table = pool.table(random, kind);
        let mut both = Both::new(side, &mut rooms, &mut tables, table);
        for place in 0..LONG {
            let owners = &both.sound[OWNERS..COUNTS];
            let call = pool.call(random, &[0, 1, 2, 3, 4, 5, 6, 7], owners, RUNS);
            if let Err(words) = both.step(&call, &mut seen) {
                fault(number, place, words);
                break;
            }
        }
    }
    let missed = seen.not_reached();
    let missed = (!missed.is_empty()).then(|| format!("no call has {missed:?}"));
    let seconds = begun.elapsed().as_secs_f64();
    let words = format!("{}, {seconds:.1} s", seen.told());
    told("desks-histories", first.or(seen.odd()).or(missed), &words)
}

/// A table on which each call is done: slot 0 is free, the others are the two desks' in turn, and each holds set T.
fn sound_table(random: &mut Random) -> Vec<u8> {
    let mut table: Vec<u8> = (0..ROOM).map(|_| random.word() as u8).collect();
    for slot in 0..SLOTS {
        let owner = if slot == 0 { 0 } else { 1 + (slot + 1) % 2 };
        let set = Set::t().record();
        put(&mut table, slot, Some(&set), owner as u8, slot as u32);
    }
    table
}

/// The three calls of a desk about a slot, and a run of map M from there.
fn four_calls(lent: usize, desk: usize, slot: usize) -> [Asked; 4] {
    let record = Set::t().record().to_vec();
    let scene = named(0).expect("map M");
    let (room, fill) = (SPOT + 1, 0xa5);
    [
        Ask::Claim { desk },
        Ask::Write { desk, record },
        Ask::Release { desk },
        Ask::Run { scene, room, fill },
    ]
    .map(|ask| Asked { lent, slot, ask })
}

/// Calls on tables of their own, on either side of the page; how many, and the first that parts from the judge's.
struct Each<'a> {
    rooms: Rooms,
    tables: [Room; 2],
    seen: &'a mut Desks,
    calls: usize,
    first: Option<String>,
}

impl Each<'_> {
    fn ask(&mut self, table: &[u8], call: &Asked) {
        for side in [Side::Before, Side::Behind] {
            self.calls += 1;
            let table = table.to_vec();
            let mut both = Both::new(side, &mut self.rooms, &mut self.tables, table);
            if let Err(words) = both.step(call, self.seen) {
                self.first.get_or_insert(words);
            }
        }
    }
}

/// Every length of a table up to its room, every owner byte at every slot, and desks and slots from 0 on, with each call.
fn each(seed: u64) -> bool {
    let begun = Instant::now();
    let random = &mut Random::new(seed, SOURCE, u64::MAX - 1);
    let table = sound_table(random);
    let mut seen = Desks::default();
    let mut each = Each {
        rooms: Rooms::default(),
        tables: Default::default(),
        seen: &mut seen,
        calls: 0,
        first: None,
    };
    for lent in 0..=ROOM {
        // slot 0 is free for the claim; slot 1 is desk 1's for the others
        for (place, call) in four_calls(lent, 1, 1).iter_mut().enumerate() {
            call.slot = place.min(1);
            each.ask(&table, call);
        }
    }
    let lengths = each.calls;
    for slot in 0..SLOTS {
        for owner in 0..=u8::MAX {
            let mut table = table.clone();
            put(&mut table, slot, None, owner, 7);
            for desk in [1, 2] {
                for call in &four_calls(TABLE, desk, slot) {
                    each.ask(&table, call);
                }
            }
        }
    }
    let owners = each.calls - lengths;
    for desk in 0..NUMBERS {
        let mut table = table.clone();
        put(&mut table, 1, None, desk as u8, 7);
        for call in &four_calls(TABLE, desk, 1)[..3] {
            each.ask(&table, call);
            each.ask(
                &table,
                &Asked {
                    slot: 0,
                    ..call.clone()
                },
            );
        }
    }
    for slot in 0..NUMBERS {
        for call in &four_calls(TABLE, 1, slot) {
            each.ask(&table, call);
        }
    }
    let numbers = each.calls - lengths - owners;
    let first = each.first.take();
    let done: usize = seen.done().iter().sum();
    let seconds = begun.elapsed().as_secs_f64();
    let words = format!(
        "{lengths} calls on tables of 0 to {ROOM} bytes, {owners} with every owner byte at every slot, {numbers} with desks and slots to {}; {done} done, \
         {seconds:.1} s",
        NUMBERS - 1
    );
    let hollow = seen
        .done()
        .contains(&0)
        .then(|| "a call that is never done".to_string());
    told(
        "desks-of-every-length-owner-and-number",
        first.or(seen.odd()).or(hollow),
        &words,
    )
}

/// Histories by the million, each length, owner and number, and two desks apart.
pub fn run(seed: u64, times: usize) -> bool {
    let mut archive = Archive::default();
    histories(seed, CALLS * times)
        & each(seed)
        & apart("desks-apart", seed, APART * times, &mut archive)
}
