//! A store's calls, on stores of three lengths and of several fillings: each checks all slots, so that the time a slot is to stay alike.
use crate::detection::{self, Asked};
use crate::{RUNS, SET, maps};
use judge::fixed;
use std::time::Instant;
use uramsheg::{FREE_SLOT, SPOT_BYTES, Store};

/// The side of the map that the records are found on.
const SIDE: usize = 1024;
/// How many slots the stores have.
const LENGTHS: [usize; 3] = [1_000, 10_000, 100_000];

type Record = [u8; SPOT_BYTES];

/// A call, with the slot that it strikes.
#[derive(Clone, Copy)]
enum Call {
    Clear,
    Add,
    Strike(usize),
    CloseUp,
}

/// Which slots hold a spot, of so many.
type Filling = fn(slot: usize, slots: usize) -> bool;

const FREE: Filling = |_, _| false;
const FIRST_HALF: Filling = |slot, slots| slot < slots / 2;
const EVERY_SECOND: Filling = |slot, _| slot % 2 == 1;
const ALL_BUT_LAST: Filling = |slot, slots| slot + 1 < slots;
const LIVE: Filling = |_, _| true;

/// What is timed on a store of so many slots.
fn timed(slots: usize) -> [(&'static str, Call, &'static str, Filling); 11] {
    let last = Call::Strike(slots - 1);
    [
        ("add", Call::Add, "all free", FREE),
        ("add", Call::Add, "the first half live", FIRST_HALF),
        ("add", Call::Add, "every second live", EVERY_SECOND),
        ("add", Call::Add, "all live but the last", ALL_BUT_LAST),
        ("strike the first", Call::Strike(0), "all live", LIVE),
        ("strike the last", last, "all live", LIVE),
        ("close up", Call::CloseUp, "all free", FREE),
        ("close up", Call::CloseUp, "every second live", EVERY_SECOND),
        ("close up", Call::CloseUp, "all live", LIVE),
        ("clear", Call::Clear, "all free", FREE),
        ("clear", Call::Clear, "all live", LIVE),
    ]
}

/// The spots of a map of blobs.
fn found() -> Vec<Record> {
    let levels = maps::blobs(SIDE, fixed::set(SET).sigmas);
    let mut out = detection::room(SIDE);
    let (_, spots) = Asked { side: SIDE, levels: &levels, peak: 0.0 }.once(&mut out);
    out.as_chunks().0[..spots].to_vec()
}

/// What a call answers and leaves, by a plain list of optional records.
fn plain(call: Call, mut list: Vec<Option<Record>>, record: &Record) -> (usize, Vec<Option<Record>>) {
    let slots = list.len();
    let mut value = 0;
    match call {
        Call::Clear => list.fill(None),
        Call::Add => {
            value = list.iter().position(Option::is_none).expect("a slot is free");
            list[value] = Some(*record);
        }
        Call::Strike(slot) => list[slot] = None,
        Call::CloseUp => {
            list.retain(Option::is_some);
            value = list.len();
            list.resize(slots, None);
        }
    }
    (value, list)
}

fn bytes_of(list: &[Option<Record>]) -> Vec<u8> {
    list.iter().flat_map(|held| held.unwrap_or(FREE_SLOT)).collect()
}

/// The seconds of a call on a store, and what it answers.
fn once(call: Call, store: &mut Store<&mut [u8]>, record: &Record) -> (f64, usize) {
    let began = Instant::now();
    let answer = match call {
        Call::Clear => store.clear().map(|()| 0),
        Call::Add => store.add_record(record),
        Call::Strike(slot) => store.strike(slot).map(|()| 0),
        Call::CloseUp => store.close_up(),
    };
    (began.elapsed().as_secs_f64(), answer.expect("the store refused the benchmark's call"))
}

/// The least seconds of a call on a store that is the same before each run; the fewer slots there are, the more runs. The call must answer and leave what it does
/// of a plain list.
fn least(call: Call, list: Vec<Option<Record>>, record: &Record) -> f64 {
    let before = bytes_of(&list);
    let runs = RUNS * LENGTHS[2] / list.len();
    let (value, list) = plain(call, list, record);
    let mut bytes = before.clone();
    let mut least = f64::INFINITY;
    for _ in 0..runs {
        bytes.copy_from_slice(&before);
        let (seconds, answer) = once(call, &mut Store::from_bytes(SIDE, SIDE, &mut bytes), record);
        assert_eq!(answer, value, "what the store answers and what a plain list does");
        least = least.min(seconds);
    }
    assert!(bytes == bytes_of(&list), "the store differs from a plain list");
    least
}

/// A row for each call and filling.
pub fn table() {
    let records = found();
    let (record, others) = records.split_first().expect("the map has spots");
    println!("| call | slots | microseconds a call | ns a slot |");
    println!("|---|---|---|---|");
    for row in 0..timed(LENGTHS[0]).len() {
        for slots in LENGTHS {
            let (name, call, filled, is_live) = timed(slots)[row];
            let list = others.iter().cycle().take(slots).enumerate();
            let list = list.map(|(slot, &other)| is_live(slot, slots).then_some(other)).collect();
            let seconds = least(call, list, record);
            println!("| {name}, {filled} | {slots} | {:.1} | {:.2} |", seconds * 1e6, seconds * 1e9 / slots as f64);
        }
    }
}
