//! A partner's list beside the one that is due.

use crate::detector::{done, raw};
use crate::{Map, Refusal, Thresholds};
use std::fmt;

/// What is found of a list: whether it is the one that is due, or the index of its first record that differs, and how.
///
/// Up to that record the list is the due one, byte for byte. There the order decides first: by the key, at one key by the polarity, the minimum first.
#[must_use = "a list that is not accepted is no refusal: ask is_accepted"]
#[derive(Clone, Copy, Debug, PartialEq, Eq)]
pub enum Finding {
    /// 1: the list is the one that is due, byte for byte.
    Accepted,
    /// 2: the record there comes before the one that is due, or stands behind the last.
    Extra(usize),
    /// 3: the record that is due there is not: one that comes after it is, or the list ends.
    Absent(usize),
    /// 4: the record has the key and the polarity of the one that is due there, and another byte differs.
    Different(usize),
}

impl Finding {
    /// The finding with a number and the index that goes with it, as the C function answers them; None for a number that is none of its findings, and 0, which
    /// stands beside a refusal, is one.
    pub fn from_number(number: u32, index: usize) -> Option<Finding> {
        match number {
            1 => Some(Finding::Accepted),
            2 => Some(Finding::Extra(index)),
            3 => Some(Finding::Absent(index)),
            4 => Some(Finding::Different(index)),
            _ => None,
        }
    }

    pub fn number(self) -> u32 {
        match self {
            Finding::Accepted => 1,
            Finding::Extra(_) => 2,
            Finding::Absent(_) => 3,
            Finding::Different(_) => 4,
        }
    }

    /// Whether the list is the one that is due.
    pub fn is_accepted(self) -> bool {
        self == Finding::Accepted
    }

    /// The index of the first record that differs; None where none does.
    pub fn index(self) -> Option<usize> {
        match self {
            Finding::Accepted => None,
            Finding::Extra(index) | Finding::Absent(index) | Finding::Different(index) => {
                Some(index)
            }
        }
    }
}

impl fmt::Display for Finding {
    fn fmt(&self, f: &mut fmt::Formatter<'_>) -> fmt::Result {
        match self {
            Finding::Accepted => write!(
                f,
                "accepted: the list is the one that is due, byte for byte"
            ),
            Finding::Extra(index) => write!(
                f,
                "record {index} is extra: it comes before the one that is due there, or behind the last"
            ),
            Finding::Absent(index) => write!(
                f,
                "record {index} is absent: a later one stands in its place, or the list ends there"
            ),
            Finding::Different(index) => write!(
                f,
                "record {index} is different: it has the key and the polarity of the one that is due, and another byte differs"
            ),
        }
    }
}

/// Whether a list that somebody else's detector wrote, records of 48 bytes each, is the list that `detect` gives for the same map, byte for byte. A list that is
/// not is no refusal: the finding says at which record, and how.
///
/// A record that is bad for the map is refused, wherever it stands, behind the first that differs too. No room for a list is asked for, and the due records are
/// looked for no further than the first that differs.
///
/// ```
/// use uramsheg::{Finding, Map, Refusal, Spot, Thresholds, accept};
///
/// # let set = include_bytes!("../../../crates/list/stdin").first_chunk::<528>().unwrap();
/// # let mut levels = [0; 4].map(|_| vec![0.0; 90]);
/// # levels[0][4 * 9 + 4] = 0.25;
/// # levels[1][4 * 9 + 4] = -0.25;
/// # let map = Map { rows: 9, cols: 10, octave: 0, levels: levels.each_ref().map(Vec::as_slice) };
/// # let thresholds = Thresholds { peak: 1.0, sigma: 1.0, ratio: 10.0, low: 1.9027314, high: 4.1498866 };
/// let spots = uramsheg::spots(set, thresholds, map)?; // what is due
/// let mut list: Vec<u8> = spots.iter().flat_map(Spot::to_record).collect();
/// assert!(accept(set, thresholds, map, &list)?.is_accepted());
///
/// list[16] ^= 1; // a sample of the first record
/// let finding = accept(set, thresholds, map, &list)?;
/// assert_eq!(finding, Finding::Different(0));
/// assert!(finding.to_string().starts_with("record 0 is different"));
///
/// assert_eq!(accept(set, thresholds, map, &[])?, Finding::Absent(0));
/// assert_eq!(accept(set, thresholds, map, &list[1..]), Err(Refusal::Records { index: 0 })); // no whole record
/// # Ok::<(), Refusal>(())
/// ```
pub fn accept(
    set: &[u8],
    thresholds: Thresholds,
    map: Map<'_>,
    list: &[u8],
) -> Result<Finding, Refusal> {
    let [l0, l1, l2, l3] = map.levels;
    let (mut finding, mut value) = (0, 0);
    // SAFETY: each pointer goes with its own slice's length, and neither `finding` nor `value` overlaps another.
    let number = unsafe {
        raw::uramsheg_accept(
            set.as_ptr(),
            set.len(),
            thresholds.peak,
            thresholds.sigma,
            thresholds.ratio,
            thresholds.low,
            thresholds.high,
            map.rows,
            map.cols,
            map.octave,
            l0.as_ptr(),
            l0.len(),
            l1.as_ptr(),
            l1.len(),
            l2.as_ptr(),
            l2.len(),
            l3.as_ptr(),
            l3.len(),
            list.as_ptr(),
            list.len(),
            &mut finding,
            &mut value,
        )
    };
    done(number, value as usize, ()).map_err(|refusal| thresholds.told(refusal))?;
    let finding = Finding::from_number(finding, value as usize);
    Ok(finding.expect("libalp_c.a and this crate are of different versions: build both from one"))
}
