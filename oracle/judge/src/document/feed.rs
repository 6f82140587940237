//! The feed of columns, document 02's No. 6: the refusals in their order, then the published reference on a map of which five columns are known.

use crate::columns::only;
use crate::entries::{LONGEST, any_nan};
use crate::here::with;
use crate::record::{SPOT, Spot, laid};
use crate::run::offered;
use crate::{Logs, Map, Pass, Rules, Set, Thresholds};
use core::ops::Range;

/// The bytes of a state.
pub const STATE: usize = 564;
/// The columns that the ring holds of each level.
pub const RING: usize = 5;

/// Where the state's numbers begin: five thresholds, three whole numbers, the octave.
const THRESHOLDS: usize = 528;
const ROWS: usize = 548;
const COLS: usize = 552;
const POSITION: usize = 556;
const OCTAVE: usize = 560;

/// What a start is given beside the state; of the ring, which it never writes, the four lengths.
#[derive(Clone, Copy, Debug)]
pub struct Start<'a> {
    pub record: &'a [u8],
    pub thresholds: [f32; 5],
    pub rows: usize,
    pub cols: usize,
    pub octave: usize,
    pub ring: [usize; 4],
}

/// A start's refusals, the first that applies: 1, 3, 8, 4, 6.
fn start_refusal(given: &Start, room: usize) -> Option<u32> {
    let &Start {
        record,
        thresholds,
        rows,
        cols,
        octave,
        ring,
    } = given;
    if rows > LONGEST || cols > LONGEST {
        Some(1)
    } else if octave > 5 {
        Some(3)
    } else if any_nan(thresholds.into()) {
        Some(8)
    } else if Set::from_record(record).is_none() {
        Some(4)
    } else if ring.iter().any(|&slice| slice < RING * rows) || room < STATE {
        Some(6)
    } else {
        None
    }
}

/// Writes a number into a state.
fn put(state: &mut [u8], at: usize, number: usize) {
    state[at..at + 4].copy_from_slice(&(number as u32).to_le_bytes());
}

/// The start: 0, or a refusal that writes nothing.
pub fn start(given: &Start, state: &mut [u8]) -> u32 {
    if let Some(number) = start_refusal(given, state.len()) {
        return number;
    }
    write_state(given, state);
    0
}

/// The state of a feed that has taken no column; what is past it is kept.
fn write_state(given: &Start, state: &mut [u8]) {
    state[..THRESHOLDS].copy_from_slice(given.record);
    let floats = state[THRESHOLDS..ROWS].chunks_exact_mut(4);
    for (bytes, value) in floats.zip(given.thresholds) {
        bytes.copy_from_slice(&value.to_le_bytes());
    }
    put(state, ROWS, given.rows);
    put(state, COLS, given.cols);
    put(state, POSITION, 0);
    put(state, OCTAVE, given.octave);
}

/// What a column's call is lent.
pub struct Call<'a> {
    pub state: &'a mut [u8],
    pub columns: [&'a [f32]; 4],
    pub ring: [&'a mut [f32]; 4],
    pub out: &'a mut [u8],
}

/// What a state's bytes say.
struct State {
    set: Set,
    thresholds: Thresholds,
    rows: usize,
    cols: usize,
    position: usize,
    octave: usize,
}

fn word(state: &[u8], at: usize) -> [u8; 4] {
    core::array::from_fn(|k| state[at + k])
}

impl State {
    /// None where the bytes are too few.
    fn read(state: &[u8]) -> Option<State> {
        if state.len() < STATE {
            return None;
        }
        let whole = |at| u32::from_le_bytes(word(state, at)) as usize;
        let float = |k: usize| f32::from_le_bytes(word(state, THRESHOLDS + 4 * k));
        Some(State {
            set: Set::unchecked(state),
            thresholds: core::array::from_fn(float).into(),
            rows: whole(ROWS),
            cols: whole(COLS),
            position: whole(POSITION),
            octave: state[OCTAVE].into(),
        })
    }

    fn past(&self) -> bool {
        self.rows > LONGEST || self.cols > LONGEST || self.cols <= self.position
    }

    /// The column that the next call judges.
    fn judged(&self) -> Option<usize> {
        (self.position >= 6 && self.position + 2 < self.cols).then(|| self.position - 2)
    }

    /// Where a column lies in the ring's slices.
    fn slot(&self, column: usize) -> Range<usize> {
        let first = column % RING * self.rows;
        first..first + self.rows
    }
}

/// A map of which five columns are known, those of the ring and the one given, and no other pixel.
fn known(state: &State, call: &Call, level: usize) -> Vec<f32> {
    let State {
        rows,
        cols,
        position,
        ..
    } = *state;
    let mut map = vec![f32::NAN; rows * cols];
    for column in position - 4..position {
        let pixels = &call.ring[level][state.slot(column)];
        map[column * rows..][..rows].copy_from_slice(pixels);
    }
    map[position * rows..][..rows].copy_from_slice(call.columns[level]);
    map
}

/// The spots of one column of a map, by the reference; `alone` spares it the other columns.
pub fn spots_of(set: &Set, map: Map, column: usize, alone: bool) -> Vec<Vec<u8>> {
    let find = || offered::detect(Pass::Reference, map).1;
    let spots = only(alone.then(|| vec![column]), || {
        with(Rules::Document, Logs::Steps, set, find)
    });
    let of_column = |spot: &&Spot| spot.key % map.cols == column;
    let spots = spots.iter().filter(of_column);
    spots.map(|spot| laid(spot).to_vec()).collect()
}

/// The records of the column that a call judges: by rising row, the minimum before the maximum.
fn records(state: &State, call: &Call) -> Vec<Vec<u8>> {
    let Some(column) = state.judged() else {
        return Vec::new();
    };
    let levels: [Vec<f32>; 4] = core::array::from_fn(|level| known(state, call, level));
    let map = Map {
        thresholds: state.thresholds,
        rows: state.rows,
        cols: state.cols,
        octave: state.octave,
        levels: levels.each_ref().map(Vec::as_slice),
    };
    spots_of(&state.set, map, column, true)
}

/// The state and the records of a call that is taken, else its refusal, the first that applies: 9, 2, 6 for the ring, 6 for the output.
fn taken(call: &Call) -> Result<(State, Vec<Vec<u8>>), u32> {
    let state = State::read(call.state).ok_or(9u32)?;
    let State { rows, .. } = state;
    let wrong = call.columns.iter().any(|column| column.len() != rows);
    let short = call.ring.iter().any(|slice| slice.len() < RING * rows);
    if state.past() {
        return Err(9);
    }
    if wrong {
        return Err(2);
    }
    if short {
        return Err(6);
    }
    let records = records(&state, call);
    if call.out.len() < SPOT * records.len() {
        return Err(6);
    }
    Ok((state, records))
}

/// One column: the refusal's number or 0, and the value beside it.
pub fn column(mut call: Call) -> (u32, u64) {
    match taken(&call) {
        Ok((state, records)) => {
            take(&state, &records, &mut call);
            (0, records.len() as u64)
        }
        Err(number) => (number, 0),
    }
}

/// Writes the records, stores the column and counts it.
fn take(state: &State, records: &[Vec<u8>], call: &mut Call) {
    for (bytes, record) in call.out.chunks_exact_mut(SPOT).zip(records) {
        bytes.copy_from_slice(record);
    }
    store(state, call);
    put(call.state, POSITION, state.position + 1);
}

fn store(state: &State, call: &mut Call) {
    for (slice, column) in call.ring.iter_mut().zip(call.columns) {
        slice[state.slot(state.position)].copy_from_slice(column);
    }
}
