//! A feed of columns: the map comes column by column, and its spots go out as soon as they are known.

use crate::detector::{LONGEST, done, raw};
use crate::{Refusal, SPOT_BYTES, Spot, Thresholds};
use std::ops::Range;

/// The bytes of a feed's state.
pub const FEED_BYTES: usize = 564;
/// How many columns of each level a feed's ring holds.
pub const RING_COLUMNS: usize = 5;

/// How many floats longer than five columns a slice of a `Feed`'s ring is: five columns of 4,096 rows are a whole number of a near cache's ways, so that the
/// same rows of all levels would push each other out of it (docs/BENCHMARKS.md, the feed).
const LONGER: usize = 1024;

/// Starts a feed in lent room: `state` becomes that of a feed that has taken no column, in its first 564 bytes; later ones are kept. Each of the ring's four
/// slices is at least 5 * rows long, and is not written yet. The calls of this feed are lent this state and this ring, and no other feed is.
pub fn feed_start(
    set: &[u8],
    thresholds: Thresholds,
    rows: usize,
    cols: usize,
    octave: usize,
    ring: [&[f32]; 4],
    state: &mut [u8],
) -> Result<(), Refusal> {
    let [r0, r1, r2, r3] = ring;
    // SAFETY: each pointer goes with its own slice's length, and `state`, the only one that is written, overlaps nothing.
    let number = unsafe {
        raw::uramsheg_feed_start(
            set.as_ptr(),
            set.len(),
            thresholds.peak,
            thresholds.sigma,
            thresholds.ratio,
            thresholds.low,
            thresholds.high,
            rows,
            cols,
            octave,
            r0.as_ptr(),
            r0.len(),
            r1.as_ptr(),
            r1.len(),
            r2.as_ptr(),
            r2.len(),
            r3.as_ptr(),
            r3.len(),
            state.as_mut_ptr(),
            state.len(),
        )
    };
    done(number, 0, ()).map_err(|refusal| thresholds.told(refusal))
}

/// Gives a feed in lent room its next column: of each level the pixels of one column, rows floats. Once column c+2 has come, column c is judged, and its
/// spots are listed in `out`, 48 bytes each, by rising row, at one pixel the minimum before the maximum; later bytes are kept. Answers their number, 0 where
/// no column is judged. A refused column is not taken: state, ring and output are as before, and it may be given again.
pub fn feed_column(
    state: &mut [u8],
    columns: [&[f32]; 4],
    ring: [&mut [f32]; 4],
    out: &mut [u8],
) -> Result<usize, Refusal> {
    let [c0, c1, c2, c3] = columns;
    let [r0, r1, r2, r3] = ring;
    let mut value = 0;
    // SAFETY: each pointer goes with its own slice's length, and what is written overlaps nothing.
    let number = unsafe {
        raw::uramsheg_feed_column(
            state.as_mut_ptr(),
            state.len(),
            c0.as_ptr(),
            c0.len(),
            c1.as_ptr(),
            c1.len(),
            c2.as_ptr(),
            c2.len(),
            c3.as_ptr(),
            c3.len(),
            r0.as_mut_ptr(),
            r0.len(),
            r1.as_mut_ptr(),
            r1.len(),
            r2.as_mut_ptr(),
            r2.len(),
            r3.as_mut_ptr(),
            r3.len(),
            out.as_mut_ptr(),
            out.len(),
            &mut value,
        )
    };
    done(number, value as usize, value as usize)
}

/// A feed with its state and its ring: columns in, spots out.
///
/// ```no_run
/// # fn scanner() -> impl Iterator<Item = [Vec<f32>; 4]> { std::iter::empty() }
/// # fn main() -> Result<(), uramsheg::Refusal> {
/// # let (set, rows, cols, octave) = (vec![0u8; 528], 600, 800, 0);
/// # let thresholds = uramsheg::Thresholds { peak: 0.0, sigma: 0.0, ratio: 12.1, low: 1.9, high: 4.1 };
/// let mut feed = uramsheg::Feed::start(&set, thresholds, rows, cols, octave)?;
/// for spot in feed.spots(scanner()) {
///     println!("{:?}", spot?);
/// }
/// assert!(feed.is_complete());
/// # Ok(())
/// # }
/// ```
#[derive(Clone, Debug)]
pub struct Feed {
    state: [u8; FEED_BYTES],
    ring: [Vec<f32>; 4],
    out: Vec<u8>,
}

impl Feed {
    /// A feed of a map of rows by cols that has taken no column.
    pub fn start(
        set: &[u8],
        thresholds: Thresholds,
        rows: usize,
        cols: usize,
        octave: usize,
    ) -> Result<Feed, Refusal> {
        // longer sides are refused before any room is looked at
        let held = rows.min(LONGEST);
        let mut feed = Feed {
            state: [0; FEED_BYTES],
            ring: [0; 4].map(|_| vec![0.0; RING_COLUMNS * held + LONGER]),
            out: vec![0; 2 * held * SPOT_BYTES],
        };
        let ring = feed.ring.each_ref().map(Vec::as_slice);
        feed_start(set, thresholds, rows, cols, octave, ring, &mut feed.state)?;
        Ok(feed)
    }

    /// Takes the next column, and lists the spots of the column that is judged by it in `out`; see `feed_column`.
    pub fn column(&mut self, columns: [&[f32]; 4], out: &mut [u8]) -> Result<usize, Refusal> {
        let ring = self.ring.each_mut().map(Vec::as_mut_slice);
        feed_column(&mut self.state, columns, ring, out)
    }

    /// Takes the next column, and gives the spots of the column that is judged by it; there is always room for them.
    pub fn push(&mut self, columns: [&[f32]; 4]) -> Result<Vec<Spot>, Refusal> {
        let ring = self.ring.each_mut().map(Vec::as_mut_slice);
        let found = feed_column(&mut self.state, columns, ring, &mut self.out)?;
        let records = self.out.as_chunks().0;
        Ok(records[..found].iter().map(Spot::from_record).collect())
    }

    /// The spots of columns that come one after another, each as soon as it is known. A refusal is the last that is given.
    pub fn spots<C: AsRef<[f32]>, I: IntoIterator<Item = [C; 4]>>(
        &mut self,
        columns: I,
    ) -> Spots<'_, I::IntoIter> {
        Spots {
            feed: self,
            columns: Some(columns.into_iter()),
            found: Vec::new().into_iter(),
        }
    }

    /// A number of the state.
    fn number(&self, at: usize) -> usize {
        let bytes = core::array::from_fn(|k| self.state[at + k]);
        u32::from_le_bytes(bytes) as usize
    }

    /// The map's rows: how long each column is.
    pub fn rows(&self) -> usize {
        self.number(548)
    }

    /// The map's cols: how many columns the feed takes.
    pub fn cols(&self) -> usize {
        self.number(552)
    }

    /// The octave that its spots carry.
    pub fn octave(&self) -> u8 {
        self.state[560]
    }

    /// How many columns have been taken: the number of the next one.
    pub fn position(&self) -> usize {
        self.number(556)
    }

    /// The columns that have been judged, whose spots have all been given. Spots are never found in the first and the last four columns.
    pub fn judged(&self) -> Range<usize> {
        let end = self.position().saturating_sub(2);
        4..end.min(self.cols().saturating_sub(4)).max(4)
    }

    /// Whether all columns have come.
    pub fn is_complete(&self) -> bool {
        self.position() == self.cols()
    }

    /// The state's bytes, as include/uramsheg.h lays them out.
    pub fn state(&self) -> &[u8; FEED_BYTES] {
        &self.state
    }
}

/// Spots of a feed; see `Feed::spots`.
#[derive(Debug)]
pub struct Spots<'a, I> {
    feed: &'a mut Feed,
    columns: Option<I>,
    found: std::vec::IntoIter<Spot>,
}

impl<C: AsRef<[f32]>, I: Iterator<Item = [C; 4]>> Iterator for Spots<'_, I> {
    type Item = Result<Spot, Refusal>;

    fn next(&mut self) -> Option<Self::Item> {
        loop {
            if let Some(spot) = self.found.next() {
                return Some(Ok(spot));
            }
            let Some(columns) = self.columns.as_mut()?.next() else {
                self.columns = None;
                return None;
            };
            match self.feed.push(columns.each_ref().map(C::as_ref)) {
                Ok(found) => self.found = found.into_iter(),
                Err(refusal) => {
                    self.columns = None;
                    return Some(Err(refusal));
                }
            }
        }
    }
}
