//! The archive's calls on a store: by the wrapper, and as C has them.

use crate::Fed;
use cases::Keep;
use uramsheg::{BadStore, Refusal, SPOT_BYTES, Store, raw};

/// The wrapper's answer; `spot` is the record of an adding.
pub fn wrapped(store: &mut [u8], keep: &Keep, spot: &[u8]) -> Fed {
    let slots = store.len() / SPOT_BYTES;
    let done = match *keep {
        Keep::Clear => Store::from_bytes(0, 0, store).clear().map(|()| 0),
        Keep::Add {
            sides: (rows, cols),
            ..
        } => Store::from_bytes(rows, cols, store).add_record(spot),
        Keep::Strike {
            sides: (rows, cols),
            slot,
        } => Store::from_bytes(rows, cols, store)
            .strike(slot)
            .map(|()| 0),
        Keep::CloseUp {
            sides: (rows, cols),
        } => Store::from_bytes(rows, cols, store).close_up(),
    };
    let (number, value) = match done {
        Ok(value) => (0, value),
        Err(refusal) => (refusal.number(), index(refusal, slots)),
    };
    Fed {
        number,
        value: value as u64,
    }
}

/// The index that goes with a refusal, as the wrapper words it, of a store of so many slots.
fn index(refusal: Refusal, slots: usize) -> usize {
    match refusal {
        Refusal::Store(BadStore::Length(length)) => length / SPOT_BYTES,
        Refusal::Store(BadStore::Slot(slot)) => slot,
        Refusal::Store(BadStore::Record(_)) => slots,
        _ => 0,
    }
}

/// The C function's answer, its value another number before the call; `spot` is the record of an adding.
pub fn called(store: &mut [u8], keep: &Keep, spot: &[u8]) -> Fed {
    let (start, length) = (store.as_mut_ptr(), store.len());
    let mut value = u64::MAX;
    // SAFETY: each pointer goes with its own slice's length, and neither the store nor the value overlaps another.
    let number = unsafe {
        match *keep {
            Keep::Clear => raw::uramsheg_store_clear(start, length, &mut value),
            Keep::Add {
                sides: (rows, cols),
                ..
            } => {
                let (record, bytes) = (spot.as_ptr(), spot.len());
                raw::uramsheg_store_add(start, length, rows, cols, record, bytes, &mut value)
            }
            Keep::Strike {
                sides: (rows, cols),
                slot,
            } => raw::uramsheg_store_strike(start, length, rows, cols, slot, &mut value),
            Keep::CloseUp {
                sides: (rows, cols),
            } => raw::uramsheg_store_close_up(start, length, rows, cols, &mut value),
        }
    };
    Fed { number, value }
}
