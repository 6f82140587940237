//! Two desks, one table of sets: eight slots, each with a set, an owner and a write count.

use crate::detector::{done, list, raw, read, sized};
use crate::{Desk, Map, NotYours, Owner, Refusal, SizedSpot, Spot, Thresholds};
use std::fmt;

/// The bytes of a set record.
pub const SET_BYTES: usize = 528;
/// How many slots a table has.
pub const TABLE_SLOTS: usize = 8;
/// The bytes of a table: of each slot the set record, then of each the owner byte, then of each the write count.
pub const TABLE_BYTES: usize = TABLE_SLOTS * (SET_BYTES + 1 + 4);

/// A table in which two desks keep their sets: a desk claims a free slot, writes it, and gives it back; anybody may run detection from a slot that a desk has.
///
/// From its claim until its release nothing that the other desk calls changes what a desk's slot holds: neither what is run from it nor the answer to a write
/// there depends on the other desk. Whether a claim is granted does, by the slots that are free, and so does a run from the other desk's slot, by its set.
///
/// A table is its bytes and nothing else, as include/uramsheg.h lays them out. It may be had by value, or lie in bytes that somebody else lends, as those of a
/// file or of memory that is shared: see `from_bytes_mut`. Runs only read it, so that several threads may run from it at once; that it is not written
/// meanwhile Rust sees to within one program.
///
/// ```
/// use uramsheg::{Desk, Map, Owner, Refusal, Table, Thresholds};
///
/// # let daily = include_bytes!("../../python/src/uramsheg/standard.set");
/// # let mut other = *daily;
/// # other[4 * 7 + 1] ^= 1; // a digit of a scale entry
/// # let thresholds = Thresholds { peak: 0.0, sigma: 0.0, ratio: 12.1, low: 1.9, high: 4.1 };
/// # let far = |place: i32| ((place % 40 - 20).pow(2) + (place / 40 - 19).pow(2)) as f32;
/// # let raw: Vec<f32> = (0..1600).map(|place| 100.0 * (-far(place) / 12.0).exp()).collect();
/// # let levels = uramsheg::four_levels(daily, 40, 40, 0, &raw)?;
/// # let map = Map { rows: 40, cols: 40, octave: 0, levels: levels.each_ref().map(Vec::as_slice) };
/// let mut table = Table::new();
/// table.claim(Desk::Daily, 0)?;
/// table.write(Desk::Daily, 0, daily)?;
///
/// // reprocessing has its own slot beside it
/// let slot = table.free_slot().expect("all slots are taken");
/// table.claim(Desk::Reprocessing, slot)?;
/// assert_eq!(table.spots(slot, thresholds, map), Err(Refusal::Set)); // before it is written
/// table.write(Desk::Reprocessing, slot, &other)?;
///
/// let before = table.spots(0, thresholds, map)?;
/// let refused = table.write(Desk::Reprocessing, 0, &other).unwrap_err();
/// assert!(refused.to_string().starts_with("slot 0 is the daily desk's"));
/// assert_eq!(table.spots(0, thresholds, map)?, before);
/// assert_ne!(table.spots(slot, thresholds, map)?, before);
///
/// table.release(Desk::Daily, 0)?;
/// assert_eq!(table.slot(0).unwrap().owner, Owner::Free);
/// # Ok::<(), Refusal>(())
/// ```
#[derive(Clone, PartialEq, Eq)]
#[repr(transparent)]
pub struct Table {
    bytes: [u8; TABLE_BYTES],
}

/// What a slot of a table holds.
#[derive(Clone, Copy, PartialEq, Eq)]
pub struct Slot<'a> {
    pub number: usize,
    pub owner: Owner,
    /// How many claims and writes of it were done, by whichever desk. Where neither it nor the owner is another than before, the set was not written in between.
    pub count: u32,
    /// Its set record: zeros, which are not good, between a claim and the first write; in a free slot what was there when it was given back.
    pub set: &'a [u8; SET_BYTES],
}

impl Default for Table {
    fn default() -> Table {
        Table::new()
    }
}

impl Table {
    /// A table of free slots, none of which was ever claimed: zeros.
    pub const fn new() -> Table {
        Table {
            bytes: [0; TABLE_BYTES],
        }
    }

    /// The table that lies in lent bytes, to read it and to run from it. Any 4,264 bytes are one; bytes of another length are refused as `NotYours`.
    pub fn from_bytes(bytes: &[u8]) -> Result<&Table, Refusal> {
        let none = Refusal::NotYours(NotYours::Table(bytes.len()));
        let whole: &[u8; TABLE_BYTES] = bytes.try_into().map_err(|_| none)?;
        // SAFETY: a table is laid out as its bytes are, and any bytes are one.
        Ok(unsafe { &*std::ptr::from_ref(whole).cast() })
    }

    /// The table that lies in lent bytes, to claim, write and release too. What the calls do is done to the bytes.
    pub fn from_bytes_mut(bytes: &mut [u8]) -> Result<&mut Table, Refusal> {
        let none = Refusal::NotYours(NotYours::Table(bytes.len()));
        let whole: &mut [u8; TABLE_BYTES] = bytes.try_into().map_err(|_| none)?;
        // SAFETY: a table is laid out as its bytes are, and any bytes are one.
        Ok(unsafe { &mut *std::ptr::from_mut(whole).cast() })
    }

    /// The table's bytes, to be kept or sent.
    pub fn as_bytes(&self) -> &[u8; TABLE_BYTES] {
        &self.bytes
    }

    /// What a slot holds; None for a number above 7.
    pub fn slot(&self, number: usize) -> Option<Slot<'_>> {
        let (sets, rest) = self.bytes.as_chunks();
        let (owners, counts) = rest.split_at(TABLE_SLOTS);
        Some(Slot {
            number,
            owner: Owner::from_byte(*owners.get(number)?),
            count: u32::from_le_bytes(*counts.as_chunks().0.get(number)?),
            set: sets.get(number)?,
        })
    }

    /// All slots, in the order of their numbers.
    pub fn slots(&self) -> impl Iterator<Item = Slot<'_>> {
        (0..TABLE_SLOTS).filter_map(|number| self.slot(number))
    }

    /// The first slot that a claim would be granted, for either desk: one that is free and whose count is not the largest.
    pub fn free_slot(&self) -> Option<usize> {
        let mut slots = self.slots();
        let free = slots.find(|slot| slot.owner == Owner::Free && slot.count < u32::MAX);
        free.map(|slot| slot.number)
    }

    /// A refusal of a slot says what is wrong with it; any other stays as it is.
    fn told(&self, slot: usize, refusal: Refusal) -> Refusal {
        let held = |held: Slot<'_>| NotYours::Owner {
            slot,
            owner: held.owner,
        };
        match refusal {
            Refusal::NotYours(_) => {
                Refusal::NotYours(self.slot(slot).map_or(NotYours::Slot(slot), held))
            }
            other => other,
        }
    }

    /// What a call on a slot answered, as a result.
    fn answer<T>(&self, slot: usize, number: u32, answer: T) -> Result<T, Refusal> {
        done(number, 0, answer).map_err(|refusal| self.told(slot, refusal))
    }

    /// Claims a free slot for a desk. Its set becomes zeros, which no run takes before it is written; its count is one more.
    pub fn claim(&mut self, desk: Desk, slot: usize) -> Result<(), Refusal> {
        // SAFETY: the pointer goes with the table's own length.
        let number = unsafe {
            raw::uramsheg_desk_claim(
                self.bytes.as_mut_ptr(),
                TABLE_BYTES,
                desk.number().into(),
                slot,
            )
        };
        self.answer(slot, number, ())
    }

    /// Writes a set record to a slot of the desk's own; its count is one more.
    pub fn write(&mut self, desk: Desk, slot: usize, set: &[u8]) -> Result<(), Refusal> {
        // SAFETY: each pointer goes with its own length, and the table, which is written, overlaps nothing.
        let number = unsafe {
            raw::uramsheg_desk_write(
                self.bytes.as_mut_ptr(),
                TABLE_BYTES,
                desk.number().into(),
                slot,
                set.as_ptr(),
                set.len(),
            )
        };
        self.answer(slot, number, ())
    }

    /// Gives a slot of the desk's own back: it is free; its set and its count stay.
    pub fn release(&mut self, desk: Desk, slot: usize) -> Result<(), Refusal> {
        // SAFETY: the pointer goes with the table's own length.
        let number = unsafe {
            raw::uramsheg_desk_release(
                self.bytes.as_mut_ptr(),
                TABLE_BYTES,
                desk.number().into(),
                slot,
            )
        };
        self.answer(slot, number, ())
    }

    /// Lists the map's spots in `out` as `detect` does, under the set that stands in a slot of either desk.
    pub fn run(
        &self,
        slot: usize,
        thresholds: Thresholds,
        map: Map<'_>,
        out: &mut [u8],
    ) -> Result<usize, Refusal> {
        let [l0, l1, l2, l3] = map.levels;
        let mut value = 0;
        // SAFETY: each pointer goes with its own length, and neither `out` nor `value` overlaps another.
        let number = unsafe {
            raw::uramsheg_desk_run(
                self.bytes.as_ptr(),
                TABLE_BYTES,
                slot,
                thresholds.peak,
                thresholds.sigma,
                thresholds.ratio,
                thresholds.low,
                thresholds.high,
                map.rows,
                map.cols,
                map.octave,
                l0.as_ptr(),
                l0.len(),
                l1.as_ptr(),
                l1.len(),
                l2.as_ptr(),
                l2.len(),
                l3.as_ptr(),
                l3.len(),
                out.as_mut_ptr(),
                out.len(),
                &mut value,
            )
        };
        self.answer(slot, number, value as usize)
            .map_err(|refusal| thresholds.told(refusal))
    }

    /// The map's spots under the set that stands in a slot of either desk.
    pub fn spots(
        &self,
        slot: usize,
        thresholds: Thresholds,
        map: Map<'_>,
    ) -> Result<Vec<Spot>, Refusal> {
        list(|out| self.run(slot, thresholds, map, out)).map(|bytes| read(&bytes))
    }

    /// The map's spots under the set that stands in a slot of either desk, each with its size and its home pixel by the same set.
    pub fn sized_spots(
        &self,
        slot: usize,
        thresholds: Thresholds,
        map: Map<'_>,
    ) -> Result<Vec<SizedSpot>, Refusal> {
        let bytes = list(|out| self.run(slot, thresholds, map, out))?;
        // a slot that was run from is one
        let set = self.slot(slot).map_or(&[][..], |held| held.set);
        sized(set, map, &bytes)
    }
}

impl fmt::Debug for Table {
    /// The slots' owners and counts.
    fn fmt(&self, f: &mut fmt::Formatter<'_>) -> fmt::Result {
        f.debug_list().entries(self.slots()).finish()
    }
}

impl fmt::Debug for Slot<'_> {
    fn fmt(&self, f: &mut fmt::Formatter<'_>) -> fmt::Result {
        f.debug_struct("Slot")
            .field("number", &self.number)
            .field("owner", &self.owner)
            .field("count", &self.count)
            .finish_non_exhaustive()
    }
}
