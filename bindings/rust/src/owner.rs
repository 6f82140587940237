//! Whose a slot of a table of sets is, and why it is not a caller's, in words.

use std::fmt;

/// One of the two desks that keep their sets in a table.
#[derive(Clone, Copy, Debug, PartialEq, Eq, Hash)]
pub enum Desk {
    Daily,
    Reprocessing,
}

impl Desk {
    /// Its number, as its slots' owner bytes and the C functions have it.
    pub fn number(self) -> u8 {
        match self {
            Desk::Daily => 1,
            Desk::Reprocessing => 2,
        }
    }
}

impl fmt::Display for Desk {
    fn fmt(&self, f: &mut fmt::Formatter<'_>) -> fmt::Result {
        f.write_str(match self {
            Desk::Daily => "the daily desk",
            Desk::Reprocessing => "the reprocessing desk",
        })
    }
}

/// Whose a slot is, by its owner byte.
#[derive(Clone, Copy, Debug, PartialEq, Eq, Hash)]
pub enum Owner {
    /// 0: either desk may claim it.
    Free,
    /// 1 or 2: this desk's, until it releases it.
    Desk(Desk),
    /// 3 to 255, which no call writes: nobody may claim, write, release or run such a slot.
    Nobody(u8),
}

impl Owner {
    /// The owner with this byte.
    pub fn from_byte(byte: u8) -> Owner {
        match byte {
            0 => Owner::Free,
            1 => Owner::Desk(Desk::Daily),
            2 => Owner::Desk(Desk::Reprocessing),
            other => Owner::Nobody(other),
        }
    }
}

/// Why a table or a slot is not the caller's to use.
#[derive(Clone, Copy, Debug, PartialEq, Eq)]
pub enum NotYours {
    /// A table has 4,264 bytes; these are so many.
    Table(usize),
    /// A table has the slots 0 to 7, and not this one.
    Slot(usize),
    /// The slot is its owner's: not free for a claim, not the desk's own for a write or a release, neither desk's for a run.
    Owner { slot: usize, owner: Owner },
    /// The C functions do not say which it is.
    Unsaid,
}

impl fmt::Display for NotYours {
    fn fmt(&self, f: &mut fmt::Formatter<'_>) -> fmt::Result {
        match self {
            NotYours::Table(length) => write!(
                f,
                "a table is 4264 bytes long, and what is lent {length}: lend exactly one table"
            ),
            NotYours::Slot(slot) => {
                write!(f, "there is no slot {slot}: a table has the slots 0 to 7")
            }
            NotYours::Owner { slot, owner } => match owner {
                Owner::Free => write!(f, "slot {slot} is free: claim it and write a set first"),
                Owner::Desk(desk) => write!(
                    f,
                    "slot {slot} is {desk}'s: it alone can write it or give it back; claim a free slot, or use one of your own"
                ),
                Owner::Nobody(byte) => write!(
                    f,
                    "slot {slot} has the owner byte {byte}, which is nobody's: use another slot"
                ),
            },
            NotYours::Unsaid => write!(
                f,
                "the table is not 4264 bytes long, the desk not 1 or 2, the slot above 7, or the slot is not free for a claim, not the desk's own for a write \
                 or a release, neither desk's for a run"
            ),
        }
    }
}

impl std::error::Error for NotYours {}
