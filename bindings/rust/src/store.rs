//! A day's spots in one buffer: slots that hold a spot or are free.

use crate::detector::{done, raw};
use crate::{BadStore, NoSpot, Refusal, SPOT_BYTES, Spot};
use std::fmt;

/// Where a record has its polarity, and what a free slot has there.
const POLARITY: usize = 38;
const FREE: u8 = 255;

/// What a free slot of a store holds.
pub const FREE_SLOT: [u8; SPOT_BYTES] = {
    let mut slot = [0; SPOT_BYTES];
    slot[POLARITY] = FREE;
    slot
};

/// A store of the spots that were found on maps of one size, each in a slot of its own, so that a false one may be struck and its slot taken again.
///
/// A spot keeps its slot until it is struck or the store is closed up. A store is its slots' bytes and nothing else, as include/uramsheg.h lays them out, with the
/// rows and cols of the maps. The bytes may be the store's own, a `Vec`, or lie where somebody else lends them, as those of a file or of memory that is shared:
/// see `from_bytes`.
///
/// Each call but `clear` first checks all slots, so that its time grows with their number.
///
/// ```
/// use uramsheg::{Refusal, Store};
///
/// # let spot = |x: f32| uramsheg::Spot {
/// #     x, y: 4.0, sigma: 2.0, peak: 4.0, samples: [-1.0, 4.0, 0.0, 0.0], key: 40 + x as u32, octave: 0, scale_index: 1, is_max: true, dx: 0.0, dy: 0.0,
/// # };
/// # let [one, two, three] = [spot(3.0), spot(5.0), spot(7.0)];
/// # let set = include_bytes!("../../python/src/uramsheg/standard.set");
/// let mut store = Store::new(9, 10, 2); // two slots, for maps of 9 rows and 10 cols
/// assert_eq!(store.add(&one)?, 0);
/// assert_eq!(store.add(&two)?, 1);
/// assert_eq!(store.add(&three), Err(Refusal::NoFreeSlot { slots: 2 }));
///
/// store.strike(0)?; // a false one: its slot is the next to be taken
/// assert_eq!(store.add(&three)?, 0);
/// let spots: Vec<_> = store.spots().collect();
/// assert_eq!(spots, [(0, three), (1, two)]);
///
/// store.strike(0)?;
/// assert!(store.strike(0).unwrap_err().to_string().starts_with("slot 0 is free"));
/// assert_eq!(store.close_up()?, 1); // what is left is a list, as detection gives one
/// let mut sized = [0; uramsheg::SIZED_BYTES];
/// assert_eq!(uramsheg::join(set, 9, 10, store.list(), &mut sized)?, 1);
/// # Ok::<(), Refusal>(())
/// ```
#[derive(Clone, PartialEq, Eq)]
pub struct Store<B = Vec<u8>> {
    rows: usize,
    cols: usize,
    bytes: B,
}

impl Store {
    /// A store of so many free slots, for spots on maps of these rows and cols.
    pub fn new(rows: usize, cols: usize, slots: usize) -> Store {
        Store::from_bytes(rows, cols, FREE_SLOT.repeat(slots))
    }
}

fn is_live(record: &[u8; SPOT_BYTES]) -> bool {
    record[POLARITY] != FREE
}

impl<B: AsRef<[u8]>> Store<B> {
    /// The store that lies in these bytes, as they are: `&[u8]` to read it, `&mut [u8]` to add, strike and close up too, which is done to the bytes.
    ///
    /// Nothing is checked here: a call refuses bytes that are no store, and what is read of such bytes is nobody's. `clear` makes a store of any whole slots.
    pub fn from_bytes(rows: usize, cols: usize, bytes: B) -> Store<B> {
        Store { rows, cols, bytes }
    }

    /// The slots' bytes, to be kept or sent.
    pub fn as_bytes(&self) -> &[u8] {
        self.bytes.as_ref()
    }

    /// The bytes that it lay in.
    pub fn into_bytes(self) -> B {
        self.bytes
    }

    /// How many slots there are, free ones too.
    pub fn slots(&self) -> usize {
        self.as_bytes().len() / SPOT_BYTES
    }

    /// The record in a slot; None where the slot is free or not one of the store's.
    pub fn record(&self, slot: usize) -> Option<&[u8; SPOT_BYTES]> {
        let record = self.as_bytes().as_chunks().0.get(slot)?;
        is_live(record).then_some(record)
    }

    /// The spot in a slot; None where the slot is free or not one of the store's.
    pub fn spot(&self, slot: usize) -> Option<Spot> {
        self.record(slot).map(Spot::from_record)
    }

    /// The spots with their slots, in the order of the slots.
    pub fn spots(&self) -> impl Iterator<Item = (usize, Spot)> {
        let live = |slot| Some((slot, self.spot(slot)?));
        (0..self.slots()).filter_map(live)
    }

    /// The records before the first free slot, one behind the other: of a store that is closed up all its spots, as a list that `join` takes.
    pub fn list(&self) -> &[u8] {
        let records = self.as_bytes().as_chunks().0;
        let count = records.iter().take_while(|record| is_live(record)).count();
        records[..count].as_flattened()
    }

    /// What a call answered, as a result. A refusal of the store says what is wrong with it; any other stays as it is.
    fn answer<T>(&self, number: u32, value: u64, answer: T) -> Result<T, Refusal> {
        let length = self.as_bytes().len();
        done(number, value as usize, answer).map_err(|refusal| match refusal {
            Refusal::Records { .. } if !length.is_multiple_of(SPOT_BYTES) => {
                Refusal::Store(BadStore::Length(length))
            }
            Refusal::Records { index } => Refusal::Store(BadStore::Slot(index)),
            Refusal::Room => Refusal::NoFreeSlot {
                slots: self.slots(),
            },
            other => other,
        })
    }
}

impl<B: AsRef<[u8]> + AsMut<[u8]>> Store<B> {
    /// Frees every slot, whatever the bytes hold.
    pub fn clear(&mut self) -> Result<(), Refusal> {
        let bytes = self.bytes.as_mut();
        let mut value = 0;
        // SAFETY: the pointer goes with the slice's own length, and `value` overlaps nothing.
        let number =
            unsafe { raw::uramsheg_store_clear(bytes.as_mut_ptr(), bytes.len(), &mut value) };
        self.answer(number, value, ())
    }

    /// Puts a spot into the lowest free slot. Answers the slot.
    pub fn add(&mut self, spot: &Spot) -> Result<usize, Refusal> {
        self.add_record(&spot.to_record())
    }

    /// Puts a record into the lowest free slot, byte for byte. Answers the slot.
    pub fn add_record(&mut self, record: &[u8]) -> Result<usize, Refusal> {
        let bytes = self.bytes.as_mut();
        let mut value = 0;
        // SAFETY: each pointer goes with its own slice's length, and neither the store, which is written, nor `value` overlaps another.
        let number = unsafe {
            raw::uramsheg_store_add(
                bytes.as_mut_ptr(),
                bytes.len(),
                self.rows,
                self.cols,
                record.as_ptr(),
                record.len(),
                &mut value,
            )
        };
        let slots = self.slots();
        self.answer(number, value, value as usize)
            .map_err(|refusal| match refusal {
                Refusal::Store(BadStore::Slot(index)) if index == slots => {
                    Refusal::Store(BadStore::Record(record.len()))
                }
                other => other,
            })
    }

    /// Strikes the spot of a slot, which is free then.
    pub fn strike(&mut self, slot: usize) -> Result<(), Refusal> {
        let bytes = self.bytes.as_mut();
        let mut value = 0;
        // SAFETY: the pointer goes with the slice's own length, and `value` overlaps nothing.
        let number = unsafe {
            raw::uramsheg_store_strike(
                bytes.as_mut_ptr(),
                bytes.len(),
                self.rows,
                self.cols,
                slot,
                &mut value,
            )
        };
        let slots = self.slots();
        self.answer(number, value, ())
            .map_err(|refusal| match refusal {
                Refusal::NoSpot(_) if slot < slots => Refusal::NoSpot(NoSpot::Free(slot)),
                Refusal::NoSpot(_) => Refusal::NoSpot(NoSpot::Past { slot, slots }),
                other => other,
            })
    }

    /// Closes the store up: the spots move down in the order of their slots, and the slots behind them are free. Answers how many spots there are, which `list`
    /// then has all of.
    pub fn close_up(&mut self) -> Result<usize, Refusal> {
        let bytes = self.bytes.as_mut();
        let mut value = 0;
        // SAFETY: the pointer goes with the slice's own length, and `value` overlaps nothing.
        let number = unsafe {
            raw::uramsheg_store_close_up(
                bytes.as_mut_ptr(),
                bytes.len(),
                self.rows,
                self.cols,
                &mut value,
            )
        };
        self.answer(number, value, value as usize)
    }
}

impl<B: AsRef<[u8]>> fmt::Debug for Store<B> {
    /// The map's sides, and how many slots there are and hold a spot.
    fn fmt(&self, f: &mut fmt::Formatter<'_>) -> fmt::Result {
        f.debug_struct("Store")
            .field("rows", &self.rows)
            .field("cols", &self.cols)
            .field("slots", &self.slots())
            .field("spots", &self.spots().count())
            .finish_non_exhaustive()
    }
}
