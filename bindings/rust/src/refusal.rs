//! Why a call was refused, in words.

use crate::{BadStore, Missing, NoSpot, NotYours};
use std::fmt;

/// Why a call was refused. Of the call's checks, in its order, the first that holds is answered: detection checks 1, 2, 3, 8, 4; the join, and that of old lists,
/// 1, 4, 5 for the list's length, 5 for a record, 6; correction 4, 7; halving a level 1, 2, 6; making levels 1, 2, 3, 4, 6; a feed's start 1, 3, 8, 4, 6; its
/// column 9, 2, 6; a scene 10, 2, 3, 8, 4, 6 for a tile slice, 6 for the records of a tile; a desk's claim 11, 12; its write 11, 12, 4; its release 11; a run from
/// a table 11, then as detection; clearing a store 5; adding to one 1, 5 for the store's length, 5 for a slot, 5 for the record, 6; striking a spot of one 1, 5, 5,
/// 13; closing one up 1, 5, 5; accepting a list as detection, then 5 for the list's length, 5 for a record.
#[derive(Clone, Copy, Debug, PartialEq, Eq)]
pub enum Refusal {
    /// 1: rows or cols above 4,096, but for a scene.
    Size,
    /// 2: a level, or the raw map, is not rows times cols long, or a feed's column not rows.
    Level,
    /// 3: the octave is above 5.
    Octave,
    /// 4: the set record is not 528 bytes long or not good, as a slot's is that was claimed and not yet written.
    Set,
    /// 5: the list is not a whole number of records (the index is then their number), or the record at the index is bad.
    Records { index: usize },
    /// 5 too: a store, or the record that is added to it, is bad, and why.
    Store(BadStore),
    /// 6: the output, or one of the four, or a feed's ring or state, or a scene's tile slice, is shorter than needed.
    Room,
    /// 6 too: the records of a scene's tile don't fit in the rest of the output. It begins with those of the tiles before it, this many.
    Full { tiles: usize },
    /// 6 too: none of a store's slots, this many, is free.
    NoFreeSlot { slots: usize },
    /// 7: the spot has no size, and why.
    NoSize(Missing),
    /// 8: a threshold is not a number. `nan` tells which of peak, sigma, ratio, low and high are NaN.
    Thresholds { nan: [bool; 5] },
    /// 9: all of the feed's columns have come, or the state is none of a feed's.
    Past,
    /// 10: rows or cols of a scene above 16,384.
    Scene,
    /// 11: the table, or the slot, is not the caller's to use, and why.
    NotYours(NotYours),
    /// 12: the slot's write count is the largest, 4,294,967,295.
    Count,
    /// 13: the store's slot holds no spot, and why.
    NoSpot(NoSpot),
}

/// The thresholds' names, in their order.
const NAMES: [&str; 5] = ["peak", "sigma", "ratio", "low", "high"];

impl Refusal {
    /// The refusal with a number and the value that goes with it, as the C functions answer them; None for a number, or a cause beside 7, that is none of
    /// theirs. Which threshold is NaN they do not say: the calls see it by those they were given. Nor do they say of 6 beside 0 whether it is `Room` or a
    /// scene's first tile that does not fit: `scene` sees it by the tile slices. Nor why it is 11: a `Table` sees it by its slot. Nor what is
    /// wrong with a store beside 5, 6 and 13, which a `Store` sees by its slots.
    pub fn from_number(number: u32, value: usize) -> Option<Refusal> {
        Some(match number {
            1 => Refusal::Size,
            2 => Refusal::Level,
            3 => Refusal::Octave,
            4 => Refusal::Set,
            5 => Refusal::Records { index: value },
            6 if value > 0 => Refusal::Full { tiles: value },
            6 => Refusal::Room,
            7 => Refusal::NoSize(Missing::from_number(value)?),
            8 => Refusal::Thresholds { nan: [false; 5] },
            9 => Refusal::Past,
            10 => Refusal::Scene,
            11 => Refusal::NotYours(NotYours::Unsaid),
            12 => Refusal::Count,
            13 => Refusal::NoSpot(NoSpot::Unsaid),
            _ => return None,
        })
    }

    pub fn number(self) -> u32 {
        match self {
            Refusal::Size => 1,
            Refusal::Level => 2,
            Refusal::Octave => 3,
            Refusal::Set => 4,
            Refusal::Records { .. } | Refusal::Store(_) => 5,
            Refusal::Room | Refusal::Full { .. } | Refusal::NoFreeSlot { .. } => 6,
            Refusal::NoSize(_) => 7,
            Refusal::Thresholds { .. } => 8,
            Refusal::Past => 9,
            Refusal::Scene => 10,
            Refusal::NotYours(_) => 11,
            Refusal::Count => 12,
            Refusal::NoSpot(_) => 13,
        }
    }
}

impl fmt::Display for Refusal {
    fn fmt(&self, f: &mut fmt::Formatter<'_>) -> fmt::Result {
        match self {
            Refusal::Size => write!(
                f,
                "rows or cols above 4096: cut the map into tiles, as a scene does"
            ),
            Refusal::Level => write!(
                f,
                "a level, or the raw map, is not rows * cols floats long, or a feed's column is not rows floats long"
            ),
            Refusal::Octave => write!(f, "the octave is above 5"),
            Refusal::Set => write!(
                f,
                "the set record is not 528 bytes long, or the set is not good: its floats must be finite, its sigmas positive and rising, its cap not \
                 below 0, its order bytes under 9 and its spare bytes 0 (a claimed slot has a good one only once it is written)"
            ),
            Refusal::Records { index } => write!(
                f,
                "the list is not a whole number of records, 48 bytes each (an old list's, which join_old takes, have 40), or its record {index} is bad for this \
                 map"
            ),
            Refusal::Store(why) => why.fmt(f),
            Refusal::Room => write!(
                f,
                "the output, a feed's ring or state, or a scene's tile slice is too short: lend a longer one"
            ),
            Refusal::Full { tiles } => write!(
                f,
                "the output is full after {tiles} whole tiles of the scene: lend a longer one"
            ),
            Refusal::NoFreeSlot { slots } => write!(
                f,
                "each of the store's {slots} slots holds a spot: strike a false one, or use a longer store"
            ),
            Refusal::NoSize(why) => why.fmt(f),
            Refusal::Thresholds { nan } => {
                let named = NAMES.iter().zip(nan).filter(|named| *named.1);
                let names: Vec<&str> = named.map(|named| *named.0).collect();
                let colon = if names.is_empty() { "" } else { ": " };
                write!(
                    f,
                    "a threshold is not a number{colon}{}; a blank in a sheet reads as NaN",
                    names.join(", ")
                )
            }
            Refusal::Past => write!(
                f,
                "all cols of the feed have come, or its state is none of a feed's: start another feed for the next map"
            ),
            Refusal::Scene => write!(
                f,
                "rows or cols of a scene above 16384: cut it into several"
            ),
            Refusal::NotYours(why) => why.fmt(f),
            Refusal::Count => write!(
                f,
                "the slot's write count is 4294967295, the largest: use another slot"
            ),
            Refusal::NoSpot(why) => why.fmt(f),
        }
    }
}

impl std::error::Error for Refusal {}
