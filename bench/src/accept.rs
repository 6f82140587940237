//! A list beside the one that is due, against detection, on detection's maps and run after run in turn; then lists of many records.
use crate::detection::{self, Asked};
use crate::maps::{self, Levels};
use crate::{RUNS, SET};
use judge::fixed;
use std::time::Instant;
use uramsheg::{Finding, Map, SPOT_BYTES};

/// The byte of a record at which a list is made to differ, of its first sample.
const SAMPLE: usize = 16;
/// The side of the map that the long lists are of, a small one, so that the records take the most time.
const SMALL: usize = 64;
/// How many records the long lists have.
const LENGTHS: [usize; 3] = [1_000, 10_000, 100_000];

/// The seconds in which a list is read, of which this must be found.
fn once(asked: &Asked, list: &[u8], due: Finding) -> f64 {
    let judge::Map { rows, cols, octave, levels, .. } = asked.map();
    let (record, thresholds) = (fixed::set(SET).to_record(), asked.thresholds());
    let began = Instant::now();
    let found = uramsheg::accept(&record, thresholds, Map { rows, cols, octave, levels }, list);
    let seconds = began.elapsed().as_secs_f64();
    assert_eq!(found, Ok(due), "what is found of the benchmark's list");
    seconds
}

/// The least seconds of detection, of its own list's acceptance, and of one whose first record differs; and the spots.
fn least(asked: &Asked, out: &mut [u8]) -> ([f64; 3], usize) {
    let (mut least, mut found) = ([f64::INFINITY; 3], 0);
    for _ in 0..RUNS {
        let detection;
        (detection, found) = asked.once(out);
        let list = &mut out[..SPOT_BYTES * found];
        let own = once(asked, list, Finding::Accepted);
        let mut first = f64::INFINITY; // an empty list has no first record
        if found > 0 {
            list[SAMPLE] ^= 1;
            first = once(asked, list, Finding::Different(0));
        }
        least.iter_mut().zip([detection, own, first]).for_each(|(least, seconds)| *least = least.min(seconds));
    }
    (least, found)
}

/// A row for each peak.
fn rows(name: &str, side: usize, levels: &Levels, peaks: &[f32]) {
    let mut out = detection::room(side);
    for &peak in peaks {
        let asked = Asked { side, levels, peak };
        let (least, found) = least(&asked, &mut out);
        let [detection, own, first] = least.map(|seconds| asked.each(seconds));
        let first = if found > 0 { format!("{first:.2} | {:.3}", first / detection) } else { "no record | -".into() };
        println!("| {} | {found} | {own:.1} | {detection:.1} | {:.2} | {first} |", detection::title(name, &asked), own / detection);
    }
}

/// The blobs' own lists.
pub fn of_blobs(side: usize, blobs: &Levels) {
    println!("| map | spots | accepting the due list, ns a pixel | our detection | ratio | a list whose first record differs | ratio |");
    println!("|---|---|---|---|---|---|---|");
    rows("blobs", side, blobs, &detection::PEAKS);
}

/// Lists of many records whose first differs: each record is still looked at, so that the time a record is to stay alike.
fn long_lists() {
    let blobs = maps::blobs(SMALL, fixed::set(SET).sigmas);
    let (asked, mut out) = (Asked { side: SMALL, levels: &blobs, peak: 0.0 }, detection::room(SMALL));
    let (_, found) = asked.once(&mut out);
    let mut records = out.as_chunks::<SPOT_BYTES>().0[..found].to_vec();
    records.first_mut().expect("the map has spots")[SAMPLE] ^= 1;
    println!("| records, of a map of {SMALL} by {SMALL} | microseconds a call | ns a record |");
    println!("|---|---|---|");
    for length in LENGTHS {
        let list: Vec<u8> = records.iter().cycle().take(length).flatten().copied().collect();
        let runs = RUNS * LENGTHS[2] / length;
        let seconds = (0..runs).map(|_| once(&asked, &list, Finding::Different(0))).fold(f64::INFINITY, f64::min);
        println!("| {length} | {:.1} | {:.2} |", seconds * 1e6, seconds * 1e9 / length as f64);
    }
}

/// Detection's own list on each of its maps, and long lists.
pub fn table(side: usize) {
    let blobs = maps::blobs(side, fixed::set(SET).sigmas);
    of_blobs(side, &blobs);
    detection::others(side, &blobs, |name, levels, peaks| rows(name, side, levels, peaks));
    println!();
    long_lists();
}
