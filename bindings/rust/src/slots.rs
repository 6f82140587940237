//! Why a store of spots, or a slot of it, is refused, in words.

use crate::SPOT_BYTES;
use std::fmt;

/// What is bad about a store, or about the record that is added to it.
#[derive(Clone, Copy, Debug, PartialEq, Eq)]
pub enum BadStore {
    /// A store is whole slots of 48 bytes, and these are so many bytes.
    Length(usize),
    /// This slot neither is free nor holds a record that is good for the store's map.
    Slot(usize),
    /// The record that is added is not good for the store's map, or so many bytes long and not 48.
    Record(usize),
}

impl fmt::Display for BadStore {
    fn fmt(&self, f: &mut fmt::Formatter<'_>) -> fmt::Result {
        match self {
            BadStore::Length(length) => write!(
                f,
                "a store is whole slots of 48 bytes each, and what is lent is {length} bytes long: lend a multiple of 48"
            ),
            BadStore::Slot(slot) => write!(
                f,
                "slot {slot} of the store neither is free nor holds a record that is good for a map of its rows and cols: give those of the map that the spots \
                 were found on, or clear the store"
            ),
            BadStore::Record(SPOT_BYTES) => write!(
                f,
                "the record is bad for a map of the store's rows and cols: add one that was found on such a map"
            ),
            BadStore::Record(length) => write!(
                f,
                "a record is 48 bytes long, and what is added {length}: add exactly one record"
            ),
        }
    }
}

impl std::error::Error for BadStore {}

/// Why a slot of a store holds no spot.
#[derive(Clone, Copy, Debug, PartialEq, Eq)]
pub enum NoSpot {
    /// This slot is free.
    Free(usize),
    /// The store has so many slots, and not this one.
    Past { slot: usize, slots: usize },
    /// The C function does not say which it is.
    Unsaid,
}

impl fmt::Display for NoSpot {
    fn fmt(&self, f: &mut fmt::Formatter<'_>) -> fmt::Result {
        match self {
            NoSpot::Free(slot) => write!(
                f,
                "slot {slot} is free: strike one that holds a spot (closing the store up moves spots to lower slots)"
            ),
            NoSpot::Past { slot, slots } => write!(
                f,
                "there is no slot {slot}: the store has {slots}, numbered from 0"
            ),
            NoSpot::Unsaid => write!(
                f,
                "the slot is free, or the store has none of that number: strike one that holds a spot"
            ),
        }
    }
}

impl std::error::Error for NoSpot {}
