//! A day's spots in a store, request No. 10, through the archive.

mod common;
#[path = "common/histories.rs"]
mod histories;

use common::set_t;
use histories::{Random, Tally};
use uramsheg::{
    BadStore, FREE_SLOT, Map, NoSpot, Refusal, SIZED_BYTES, SPOT_BYTES, SizedSpot, Spot, Store,
    Thresholds,
};

const ROWS: usize = 9;
const COLS: usize = 10;

type Record = [u8; SPOT_BYTES];

/// A spot on a map of 9 rows and 10 cols, for each number another.
fn spot(number: usize) -> Spot {
    let (row, col) = (number / COLS % ROWS, number % COLS);
    let sign = if number.is_multiple_of(2) { -1.0 } else { 1.0 };
    Spot {
        x: col as f32,
        y: row as f32,
        sigma: 1.0 + number as f32 / 8.0,
        peak: number as f32,
        samples: [sign, 4.0, f32::MIN_POSITIVE / 2.0, -0.0],
        key: (row * COLS + col) as u32,
        octave: (number % 6) as u8,
        scale_index: 1 + (number % 2) as u8,
        is_max: number % 4 < 2,
        dx: sign * if number.is_multiple_of(3) { 0.0 } else { 0.6 },
        dy: sign * 0.5,
    }
}

/// A record with another byte somewhere.
fn with(mut record: Record, at: usize, byte: u8) -> Record {
    record[at] = byte;
    record
}

/// A store whose slots hold the spots of these numbers.
fn store_of(slots: &[Option<usize>]) -> Store {
    let record = |held: &Option<usize>| held.map_or(FREE_SLOT, |number| spot(number).to_record());
    let bytes = slots.iter().flat_map(record).collect();
    Store::from_bytes(ROWS, COLS, bytes)
}

/// A call on a store.
#[derive(Clone, Debug)]
enum Call {
    Clear,
    Add(Vec<u8>),
    Strike(usize),
    CloseUp,
}

impl Call {
    /// Most are added and struck; few records are bad, and few slots are none of the store's.
    fn some(random: &mut Random, slots: usize) -> Call {
        let record = spot(random.below(1_000)).to_record();
        let bad = with(record, 38, 2 + random.below(254) as u8);
        let short = record[..random.below(SPOT_BYTES)].to_vec();
        match random.below(64) {
            0 => Call::Clear,
            1..4 => Call::CloseUp,
            4 => Call::Add(bad.into()),
            5 => Call::Add(short),
            6 => Call::Strike(random.pick(&[slots, slots + 1, 1 << 60, usize::MAX])),
            other if slots > 0 && other % 2 == 0 => Call::Strike(random.below(slots)),
            _ => Call::Add(record.into()),
        }
    }

    /// What a store answers: the slot that is taken, or the number of spots; of any other call 0.
    fn made(&self, store: &mut Store) -> Result<usize, Refusal> {
        match self {
            Call::Clear => store.clear().map(|()| 0),
            Call::Add(record) => store.add_record(record),
            Call::Strike(slot) => store.strike(*slot).map(|()| 0),
            Call::CloseUp => store.close_up(),
        }
    }

    /// What came of it, in a word.
    fn word(&self, answer: &Result<usize, Refusal>) -> String {
        let name = match self {
            Call::Clear => "clear",
            Call::Add(_) => "add",
            Call::Strike(_) => "strike",
            Call::CloseUp => "close up",
        };
        match answer {
            Ok(_) => format!("{name} done"),
            Err(refusal) => format!("{name} refused {}", refusal.number()),
        }
    }
}

/// A store as a plain list of optional records.
struct Model(Vec<Option<Record>>);

impl Model {
    fn some(random: &mut Random) -> Model {
        let slots = random.pick(&[0, 1, 2, 5, 12, 40]);
        let live = random.below(5);
        let mut held = || (random.below(4) < live).then(|| spot(random.below(1_000)).to_record());
        Model((0..slots).map(|_| held()).collect())
    }

    fn bytes(&self) -> Vec<u8> {
        let slots = self.0.iter().map(|held| held.unwrap_or(FREE_SLOT));
        slots.flatten().collect()
    }

    /// What a call is to answer, and to do.
    fn made(&mut self, call: &Call) -> Result<usize, Refusal> {
        let slots = self.0.len();
        match call {
            Call::Clear => self.0.fill(None),
            Call::Add(record) => {
                let good = record.as_slice().try_into().ok();
                let good = good.filter(|record: &Record| record[38] < 2);
                let bad = Refusal::Store(BadStore::Record(record.len()));
                let good = good.ok_or(bad)?;
                let free = self.0.iter().position(Option::is_none);
                let slot = free.ok_or(Refusal::NoFreeSlot { slots })?;
                self.0[slot] = Some(good);
                return Ok(slot);
            }
            Call::Strike(slot) => {
                let past = NoSpot::Past { slot: *slot, slots };
                let held = self.0.get_mut(*slot).ok_or(Refusal::NoSpot(past))?;
                let free = Refusal::NoSpot(NoSpot::Free(*slot));
                held.take().ok_or(free)?;
            }
            Call::CloseUp => {
                self.0.retain(Option::is_some);
                let live = self.0.len();
                self.0.resize(slots, None);
                return Ok(live);
            }
        }
        Ok(0)
    }

    /// Whether a store holds what it is to, by all that it can be asked.
    fn is_in(&self, store: &Store) -> bool {
        let spots = self.0.iter().enumerate();
        let spots =
            spots.filter_map(|(slot, held)| Some((slot, Spot::from_record(held.as_ref()?))));
        let is_same = |slot: usize| store.record(slot) == self.0[slot].as_ref();
        store.as_bytes() == self.bytes()
            && store.slots() == self.0.len()
            && (0..self.0.len()).all(is_same)
            && store.spots().eq(spots)
    }
}

#[test]
fn any_history_of_a_store_is_that_of_a_list_of_optional_spots() {
    let mut random = Random(1);
    let mut tally = Tally::default();
    for history in 0..2_000 {
        let mut model = Model::some(&mut random);
        let mut store = Store::from_bytes(ROWS, COLS, model.bytes());
        for step in 0..100 {
            let call = Call::some(&mut random, store.slots());
            let answer = call.made(&mut store);
            assert_eq!(
                answer,
                model.made(&call),
                "history {history}, call {step}: {call:?}"
            );
            let holds = model.is_in(&store);
            assert!(holds, "history {history}, call {step}: {call:?}");
            tally.add(call.word(&answer));
        }
    }
    let words = [
        "clear done",
        "add done",
        "add refused 5",
        "add refused 6",
        "strike done",
        "strike refused 13",
        "close up done",
    ];
    tally.assert_all(&words, 1_000);
    assert_eq!(tally.0.len(), words.len());
}

#[test]
fn a_store_is_laid_out_as_the_header_says() {
    let mut store = Store::new(ROWS, COLS, 3);
    let mut due = [0; 3 * SPOT_BYTES];
    for slot in 0..3 {
        due[slot * SPOT_BYTES + 38] = 255;
    }
    assert_eq!(store.as_bytes(), due);
    for (slot, number) in [7, 8, 9].into_iter().enumerate() {
        assert_eq!(store.add(&spot(number)), Ok(slot));
    }
    assert_eq!(store.strike(1), Ok(()));
    due[..48].copy_from_slice(&spot(7).to_record());
    due[96..].copy_from_slice(&spot(9).to_record());
    assert_eq!(store.as_bytes(), due);
    assert_eq!(store.into_bytes(), due);
}

#[test]
fn a_spot_and_its_record_are_one() {
    let mut random = Random(2);
    for _ in 0..10_000 {
        let mut record: Record = std::array::from_fn(|_| random.below(256) as u8);
        record[38] %= 2;
        record[39] = 0;
        assert_eq!(Spot::from_record(&record).to_record(), record);
    }
}

/// What detection lists of map M.
fn detected() -> Vec<Spot> {
    let mut levels = [0; 4].map(|_| vec![0.0; ROWS * COLS]);
    levels[0][4 * ROWS + 4] = 0.25;
    levels[1][4 * ROWS + 4] = -0.25;
    let map = Map {
        rows: ROWS,
        cols: COLS,
        octave: 0,
        levels: levels.each_ref().map(Vec::as_slice),
    };
    let thresholds = Thresholds {
        peak: 1.0,
        sigma: 1.0,
        ratio: 10.0,
        low: 1.9027314,
        high: 4.1498866,
    };
    uramsheg::spots(&set_t(), thresholds, map).unwrap()
}

#[test]
fn what_detection_lists_is_stored_closed_up_and_sized() {
    let spots = detected();
    let [found] = spots[..] else {
        panic!("{spots:?}")
    };
    let mut store = store_of(&[Some(1), None, Some(5), None]);
    assert_eq!(store.add(&found), Ok(1));
    assert_eq!(store.spot(1), Some(found));
    assert_eq!(store.strike(0), Ok(()));
    // what is before the first free slot
    assert_eq!(store.list(), []);
    assert_eq!(store.close_up(), Ok(2));
    let list = [found, spot(5)].map(|spot| spot.to_record());
    assert_eq!(store.list(), list.as_flattened());
    let mut sized = [0; 2 * SIZED_BYTES];
    let joined = uramsheg::join(&set_t(), ROWS, COLS, store.list(), &mut sized);
    assert_eq!(joined, Ok(2));
    let sized: Vec<SizedSpot> = sized
        .as_chunks()
        .0
        .iter()
        .map(SizedSpot::from_record)
        .collect();
    assert_eq!((sized[0].spot, sized[0].size), (found, Some(8.0f32.sqrt())));
    assert_eq!(sized[1].spot, spot(5));
}

#[test]
fn the_join_takes_the_list_of_any_store_that_is_closed_up() {
    let mut random = Random(3);
    for _ in 0..1_000 {
        let model = Model::some(&mut random);
        let live: Vec<Record> = model.0.iter().copied().flatten().collect();
        let mut store = Store::from_bytes(ROWS, COLS, model.bytes());
        assert_eq!(store.close_up(), Ok(live.len()));
        assert_eq!(store.list(), live.as_flattened());
        let mut sized = vec![0; live.len() * SIZED_BYTES];
        let joined = uramsheg::join(&set_t(), ROWS, COLS, store.list(), &mut sized);
        assert_eq!(joined, Ok(live.len()));
        // closed up once more it is as it was
        let before = store.clone();
        assert_eq!(store.close_up(), Ok(live.len()));
        assert_eq!(store, before);
    }
}

#[test]
fn calls_on_a_lent_store_are_done_to_its_bytes_alone() {
    for start in 0..4 {
        let mut bytes = [0xa5; 3 * SPOT_BYTES + 4];
        let lent = &mut bytes[start..][..3 * SPOT_BYTES];
        let mut store = Store::from_bytes(ROWS, COLS, lent);
        assert_eq!(store.clear(), Ok(()));
        for slot in 0..3 {
            assert_eq!(store.add(&spot(slot)), Ok(slot));
        }
        assert_eq!(store.strike(0), Ok(()));
        assert_eq!(store.close_up(), Ok(2));
        let (before, rest) = bytes.split_at(start);
        let (own, behind) = rest.split_at(3 * SPOT_BYTES);
        assert!(before.iter().chain(behind).all(|&byte| byte == 0xa5));
        // bytes that are only read are a store too
        let read = Store::from_bytes(ROWS, COLS, own);
        assert_eq!(
            read.as_bytes(),
            store_of(&[Some(1), Some(2), None]).as_bytes()
        );
        assert_eq!(read.spot(1), Some(spot(2)));
        assert!(std::ptr::eq(read.list().as_ptr(), own.as_ptr()));
    }
}

#[test]
fn a_store_is_whole_slots() {
    for length in 0..200 {
        let mut store = Store::from_bytes(ROWS, COLS, vec![0xa5; length]);
        let before = store.clone();
        let bad = Refusal::Store(BadStore::Length(length));
        if length % SPOT_BYTES == 0 {
            assert_eq!(store.clear(), Ok(()));
            assert_eq!(store, Store::new(ROWS, COLS, length / SPOT_BYTES));
            continue;
        }
        assert_eq!(store.clear(), Err(bad));
        assert_eq!(store.add(&spot(1)), Err(bad));
        assert_eq!(store.strike(0), Err(bad));
        assert_eq!(store.close_up(), Err(bad));
        assert_eq!(store, before);
        assert_eq!(store.slots(), length / SPOT_BYTES);
    }
}

#[test]
fn a_store_of_no_slots_is_full_and_empty() {
    let mut store = Store::new(ROWS, COLS, 0);
    assert_eq!(store.clear(), Ok(()));
    assert_eq!(store.add(&spot(1)), Err(Refusal::NoFreeSlot { slots: 0 }));
    let bad = Refusal::Store(BadStore::Record(47));
    assert_eq!(store.add_record(&[0; 47]), Err(bad));
    let past = Refusal::NoSpot(NoSpot::Past { slot: 0, slots: 0 });
    assert_eq!(store.strike(0), Err(past));
    assert_eq!(store.close_up(), Ok(0));
    assert_eq!((store.slots(), store.list().len()), (0, 0));
    assert_eq!(store.spots().next(), None);
}

#[test]
fn a_slot_that_is_neither_free_nor_good_is_refused() {
    let free_but = |at| with(FREE_SLOT, at, 1);
    let good = spot(4).to_record();
    let others = (0..SPOT_BYTES).filter(|&at| at != 38).map(free_but);
    let bad = others.chain([
        with(good, 38, 255),
        with(good, 38, 2),
        with(good, 39, 1),
        [0; 48],
    ]);
    for (round, record) in bad.enumerate() {
        let slot = round % 3;
        let mut bytes = store_of(&[Some(1), None, Some(2)]).into_bytes();
        bytes[slot * SPOT_BYTES..][..SPOT_BYTES].copy_from_slice(&record);
        let mut store = Store::from_bytes(ROWS, COLS, bytes);
        let before = store.clone();
        let refused = Refusal::Store(BadStore::Slot(slot));
        assert_eq!(store.add(&spot(3)), Err(refused), "{record:?}");
        assert_eq!(store.strike(2), Err(refused));
        assert_eq!(store.close_up(), Err(refused));
        assert_eq!(store, before);
        assert_eq!(store.clear(), Ok(()));
        assert_eq!(store, Store::new(ROWS, COLS, 3));
    }
}

#[test]
fn slots_are_good_for_the_stores_rows_and_cols() {
    let bytes = store_of(&[None, Some(89)]).into_bytes(); // at the last pixel
    for (rows, cols, due) in [
        (ROWS, COLS, Ok(1)),
        (4_096, 4_096, Ok(1)),
        (ROWS - 1, COLS, Err(Refusal::Store(BadStore::Slot(1)))),
        (ROWS, COLS - 1, Err(Refusal::Store(BadStore::Slot(1)))),
        (0, COLS, Err(Refusal::Store(BadStore::Slot(1)))),
        (4_097, COLS, Err(Refusal::Size)),
        (ROWS, 4_097, Err(Refusal::Size)),
    ] {
        let mut store = Store::from_bytes(rows, cols, bytes.clone());
        assert_eq!(store.close_up(), due, "{rows} by {cols}");
        let free = Store::new(rows, cols, 2).close_up();
        let due = due.map(|_| 0).or_else(|refusal| match refusal {
            Refusal::Size => Err(refusal),
            _ => Ok(0),
        });
        assert_eq!(free, due, "{rows} by {cols}");
    }
}

#[test]
fn the_first_refusal_is_given_and_nothing_is_changed() {
    let full = store_of(&[Some(1), Some(2)]).into_bytes();
    let mut bad = full.clone();
    bad[SPOT_BYTES + 39] = 1;
    let odd = bad[..95].to_vec();
    let short = &spot(3).to_record()[1..];
    let slot = Refusal::Store(BadStore::Slot(1));
    let length = Refusal::Store(BadStore::Length(95));
    let past = Refusal::NoSpot(NoSpot::Past { slot: 7, slots: 2 });
    let record = Refusal::Store(BadStore::Record(47));
    for (rows, bytes, added, struck) in [
        (4_097, &odd, Refusal::Size, Refusal::Size),
        (4_097, &bad, Refusal::Size, Refusal::Size),
        (ROWS, &odd, length, length),
        (ROWS, &bad, slot, slot),
        (ROWS, &full, record, past),
    ] {
        let mut store = Store::from_bytes(rows, COLS, bytes.clone());
        assert_eq!(store.add_record(short), Err(added));
        assert_eq!(store.strike(7), Err(struck));
        assert_eq!(store.as_bytes(), bytes);
    }
    let mut store = Store::from_bytes(ROWS, COLS, full);
    assert_eq!(store.add(&spot(3)), Err(Refusal::NoFreeSlot { slots: 2 }));
}

#[test]
fn slots_that_are_none_of_the_stores_hold_nothing() {
    let mut store = store_of(&[Some(1), Some(2)]);
    let before = store.clone();
    for slot in [2, 3, 256, 1 << 32, 1 << 60, usize::MAX] {
        let past = NoSpot::Past { slot, slots: 2 };
        assert_eq!(store.strike(slot), Err(Refusal::NoSpot(past)));
        assert_eq!((store.spot(slot), store.record(slot)), (None, None));
    }
    assert_eq!(store, before);
}

/// Whether a refusal begins with these words.
fn assert_said<T: std::fmt::Debug>(answer: Result<T, Refusal>, due: &str) {
    let said = answer.unwrap_err().to_string();
    assert!(said.starts_with(due), "{said}");
}

#[test]
fn the_refusals_of_a_bad_store_say_what_is_wrong_and_what_to_do() {
    assert_said(
        Store::from_bytes(ROWS, COLS, [0; 50]).clear(),
        "a store is whole slots of 48 bytes each, and what is lent is 50 bytes long: lend a multiple of 48",
    );
    assert_said(
        Store::from_bytes(ROWS, COLS, [0; 96]).close_up(),
        "slot 0 of the store neither is free nor holds a record that is good",
    );
    let mut store = store_of(&[None]);
    assert_said(
        store.add(&Spot { x: 10.0, ..spot(1) }),
        "the record is bad for a map of the store's rows and cols: add one",
    );
    assert_said(
        store.add_record(&[]),
        "a record is 48 bytes long, and what is added 0: add exactly one record",
    );
}

#[test]
fn the_refusals_of_slots_say_what_is_wrong_and_what_to_do() {
    let mut store = store_of(&[Some(1), None]);
    assert_said(
        store.strike(2),
        "there is no slot 2: the store has 2, numbered from 0",
    );
    assert_said(
        store.strike(1),
        "slot 1 is free: strike one that holds a spot",
    );
    store.add(&spot(2)).unwrap();
    assert_said(
        store.add(&spot(3)),
        "each of the store's 2 slots holds a spot: strike a false one, or use a longer store",
    );
    let unsaid = Refusal::NoSpot(NoSpot::Unsaid);
    assert_eq!(Refusal::from_number(13, 0), Some(unsaid));
    assert_said(
        Err::<(), _>(unsaid),
        "the slot is free, or the store has none of that number",
    );
}

#[test]
fn a_store_shows_its_sides_and_how_full_it_is() {
    let shown = format!("{:?}", store_of(&[Some(1), None, Some(2)]));
    assert_eq!(shown, "Store { rows: 9, cols: 10, slots: 3, spots: 2, .. }");
}
