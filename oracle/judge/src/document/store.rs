//! The store of a day's spots, document 02's No. 10: a list of optional spots, read from the lent bytes before a call and written back after it.

use crate::Answer;
use crate::entries::LONGEST;
use crate::record::{SPOT, readable};

/// A slot's bytes.
type Slot = [u8; SPOT];

/// A free slot: 255 where a record has its polarity, zeros elsewhere.
const FREE: Slot = {
    let mut slot = [0; SPOT];
    slot[38] = 255;
    slot
};

fn refused(number: u32, index: usize) -> Answer {
    Answer::Refused { number, index }
}

/// The slots of a store, or 5 with their number where its end is none.
fn slots(store: &[u8]) -> Result<&[Slot], Answer> {
    match store.as_chunks() {
        (slots, []) => Ok(slots),
        (slots, _) => Err(refused(5, slots.len())),
    }
}

/// The list that a store holds, for these sides; why it is none, the first that applies: 1, 5 for its length, 5 for a slot.
fn list(store: &[u8], rows: usize, cols: usize) -> Result<Vec<Option<Slot>>, Answer> {
    if rows > LONGEST || cols > LONGEST {
        return Err(refused(1, 0));
    }
    let spot = |(index, slot): (usize, &Slot)| match *slot {
        FREE => Ok(None),
        spot if readable(rows, cols, &spot) => Ok(Some(spot)),
        _ => Err(refused(5, index)),
    };
    slots(store)?.iter().enumerate().map(spot).collect()
}

/// Writes a list into its store.
fn write_back(list: &[Option<Slot>], store: &mut [u8]) {
    for (slot, spot) in store.chunks_exact_mut(SPOT).zip(list) {
        slot.copy_from_slice(&spot.unwrap_or(FREE));
    }
}

/// A call: what it makes of the list, and its value; a refusal writes nothing.
fn called(
    store: &mut [u8],
    (rows, cols): (usize, usize),
    call: impl FnOnce(&mut Vec<Option<Slot>>) -> Result<usize, Answer>,
) -> Answer {
    let done = list(store, rows, cols).and_then(|mut list| Ok((call(&mut list)?, list)));
    match done {
        Err(refusal) => refusal,
        Ok((value, list)) => {
            write_back(&list, store);
            Answer::Done(value)
        }
    }
}

/// Frees every slot, whatever it holds.
pub fn clear(store: &mut [u8]) -> Answer {
    let count = match slots(store) {
        Ok(slots) => slots.len(),
        Err(refusal) => return refusal,
    };
    write_back(&vec![None; count], store);
    Answer::Done(0)
}

/// Puts a spot into the lowest free slot: 5 for the spot with the slot count, then 6.
pub fn add(store: &mut [u8], rows: usize, cols: usize, spot: &[u8]) -> Answer {
    called(store, (rows, cols), |list| {
        let new = Slot::try_from(spot).ok();
        let Some(new) = new.filter(|new| readable(rows, cols, new)) else {
            return Err(refused(5, list.len()));
        };
        let Some(lowest) = list.iter().position(Option::is_none) else {
            return Err(refused(6, 0));
        };
        list[lowest] = Some(new);
        Ok(lowest)
    })
}

/// Frees a slot: 13 where it is free, or past the end.
pub fn strike(store: &mut [u8], rows: usize, cols: usize, slot: usize) -> Answer {
    called(store, (rows, cols), |list| match list.get_mut(slot) {
        Some(spot @ Some(_)) => {
            *spot = None;
            Ok(0)
        }
        _ => Err(refused(13, 0)),
    })
}

/// Moves the spots down in their order, frees the rest, and tells how many spots there are.
pub fn close_up(store: &mut [u8], rows: usize, cols: usize) -> Answer {
    called(store, (rows, cols), |list| {
        let count = list.len();
        list.retain(Option::is_some);
        let live = list.len();
        list.resize(count, None);
        Ok(live)
    })
}
