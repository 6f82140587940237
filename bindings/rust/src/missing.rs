//! Why a spot has no size, in words.

use std::fmt;

/// Why a spot has no size: of the two, in this order, the first that holds.
#[derive(Clone, Copy, Debug, PartialEq, Eq)]
pub enum Missing {
    /// 1: at its sigma the spot's curve is not one of its polarity: bent the other way, too weakly, or not finite.
    Polarity,
    /// 2: it is, but the size that it leads to is beyond the fitted range, or not finite.
    Range,
}

impl Missing {
    /// The cause with a number, as a sized record and the C function have it; None for any other, and 0, which stands beside a size, is one.
    pub fn from_number(number: usize) -> Option<Missing> {
        match number {
            1 => Some(Missing::Polarity),
            2 => Some(Missing::Range),
            _ => None,
        }
    }

    pub fn number(self) -> u8 {
        match self {
            Missing::Polarity => 1,
            Missing::Range => 2,
        }
    }
}

impl fmt::Display for Missing {
    fn fmt(&self, f: &mut fmt::Formatter<'_>) -> fmt::Result {
        f.write_str(match self {
            Missing::Polarity => "no size: the curve is not one of this polarity",
            Missing::Range => "no size: beyond the fitted range",
        })
    }
}

impl std::error::Error for Missing {}
