//! The feed: whole maps column by column, against our detection and the Rust's streaming pass, on detection's maps and run after run in turn.
use crate::detection::{self, Asked};
use crate::maps::Levels;
use crate::{RUNS, SET};
use judge::{Pass, fixed};
use std::time::Instant;
use uramsheg::{FEED_BYTES, RING_COLUMNS, SPOT_BYTES, Spot};

/// How much longer than five columns each slice of the second ring is. At 4,096 rows five columns are 80 KB, a whole number of a near cache's ways, so that
/// the same rows of all columns of all levels take the same places in it; 4 KB more set the levels apart.
const LONGER: usize = 1024;

/// What a feed is lent, and the list of its records as they came.
struct Lent {
    state: [u8; FEED_BYTES],
    /// Four slices, one after the other.
    ring: Vec<f32>,
    out: Vec<u8>,
    list: Vec<u8>,
}

impl Lent {
    fn new(side: usize, longer: usize) -> Lent {
        Lent {
            state: [0; FEED_BYTES],
            ring: vec![0.0; 4 * (RING_COLUMNS * side + longer)],
            out: vec![0; 2 * side * SPOT_BYTES],
            list: Vec::new(),
        }
    }

    /// The seconds of a whole feed, its records copied to the list.
    fn once(&mut self, asked: &Asked) -> f64 {
        let judge::Map { rows, cols, octave, levels, .. } = asked.map();
        let (record, thresholds) = (fixed::set(SET).to_record(), asked.thresholds());
        let slice = self.ring.len() / 4;
        let mut slices = self.ring.chunks_exact_mut(slice);
        let mut ring = [0; 4].map(|_| slices.next().expect("the ring has four slices"));
        self.list.clear();
        let began = Instant::now();
        let lent = ring.each_ref().map(|slice| &**slice);
        uramsheg::feed_start(&record, thresholds, rows, cols, octave, lent, &mut self.state).expect("the feed refused the benchmark's map");
        for col in 0..cols {
            let column = levels.map(|level| &level[col * rows..][..rows]);
            let lent = ring.each_mut().map(|slice| &mut **slice);
            let found = uramsheg::feed_column(&mut self.state, column, lent, &mut self.out).expect("the feed refused a column");
            self.list.extend_from_slice(&self.out[..SPOT_BYTES * found]);
        }
        began.elapsed().as_secs_f64()
    }

    /// The feed's records by key, at one key the minimum first.
    fn by_key(&self) -> Vec<u8> {
        let mut records = self.list.as_chunks::<SPOT_BYTES>().0.to_vec();
        records.sort_by_key(|record| {
            let spot = Spot::from_record(record);
            (spot.key, spot.is_max)
        });
        records.concat()
    }
}

/// A row for each peak.
fn rows(name: &str, side: usize, levels: &Levels, peaks: &[f32]) {
    let mut out = detection::room(side);
    let [mut close, mut longer] = [0, LONGER].map(|longer| Lent::new(side, longer));
    for &peak in peaks {
        let asked = Asked { side, levels, peak };
        let mut least = [f64::INFINITY; 4];
        let mut found = 0;
        for _ in 0..RUNS {
            let ours;
            (ours, found) = asked.once(&mut out);
            let (stream, theirs) = fixed::time(SET, Pass::Streaming, asked.map());
            let seconds = [close.once(&asked), longer.once(&asked), ours, stream];
            least.iter_mut().zip(seconds).for_each(|(least, seconds)| *least = least.min(seconds));
            assert_eq!(found, theirs, "spots of ours and of the streaming pass");
            let list = &out[..SPOT_BYTES * found];
            assert!(close.by_key() == list && longer.by_key() == list, "the feed's records, put in order, differ from detection's list");
        }
        let [close, longer, ours, stream] = least.map(|seconds| asked.each(seconds));
        println!(
            "| {} | {found} | {close:.1} | {longer:.1} | {ours:.1} | {:.2} | {:.2} | {stream:.1} | {:.2} | {:.2} |",
            detection::title(name, &asked), close / ours, longer / ours, close / stream, longer / stream
        );
    }
}

/// Every map of detection's table, and what the feed is lent.
pub fn table(side: usize, blobs: &Levels) {
    println!(
        "| map | spots | feed, ns a pixel | feed, slices {LONGER} floats longer | our detection | ratio | ratio, longer | Rust's streaming pass | ratio \
         | ratio, longer |"
    );
    println!("|---|---|---|---|---|---|---|---|---|---|");
    rows("blobs", side, blobs, &detection::PEAKS);
    detection::others(side, blobs, |name, levels, peaks| rows(name, side, levels, peaks));
    let column = 4 * size_of::<f32>() * side;
    println!(
        "Lent to the feed: five columns of each level, {} bytes ({} more where slices are longer), a state of {FEED_BYTES}, and room for the \
         records of a column, {}. The four levels of the whole map take {}.\n",
        RING_COLUMNS * column,
        4 * size_of::<f32>() * LONGER,
        2 * side * SPOT_BYTES,
        side * column
    );
}
