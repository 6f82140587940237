//! Detection: ours, the Rust's reference and its streaming pass, on the same maps.
use crate::maps::{self, Levels};
use crate::{SET, fastest};
use judge::{Pass, fixed};
use std::time::Instant;
use uramsheg::{Map, OLD_SPOT_BYTES, SPOT_BYTES, Thresholds};

/// A square map, and the peak that is asked of it.
pub struct Asked<'a> {
    pub side: usize,
    pub levels: &'a Levels,
    pub peak: f32,
}

impl Asked<'_> {
    /// The same for the judge.
    pub fn map(&self) -> judge::Map<'_> {
        let thresholds = [self.peak, 0.0, 12.1, 1.9027314, 4.1498866].into();
        judge::Map { thresholds, rows: self.side, cols: self.side, octave: 0, levels: self.levels.each_ref().map(Vec::as_slice) }
    }

    /// The same thresholds for ours.
    pub fn thresholds(&self) -> Thresholds {
        let judge::Thresholds { peak, sigma, ratio, low, high } = self.map().thresholds;
        Thresholds { peak, sigma, ratio, low, high }
    }

    /// Seconds in ns a pixel.
    pub fn each(&self, seconds: f64) -> f64 {
        seconds * 1e9 / (self.side * self.side) as f64
    }

    /// The least time of several runs in ns a pixel, and the spots.
    fn least(&self, run: impl FnMut() -> (f64, usize)) -> (f64, usize) {
        let (seconds, spots) = fastest(run);
        (self.each(seconds), spots)
    }

    /// The seconds of our detection, and the spots, whose list `out` begins with.
    pub fn once(&self, out: &mut [u8]) -> (f64, usize) {
        let judge::Map { rows, cols, octave, levels, .. } = self.map();
        let (record, thresholds) = (fixed::set(SET).to_record(), self.thresholds());
        let began = Instant::now();
        let found = uramsheg::detect(&record, thresholds, Map { rows, cols, octave, levels }, out).expect("detection refused the benchmark's map");
        (began.elapsed().as_secs_f64(), found)
    }

    /// Our time, and our list.
    fn ours<'a>(&self, out: &'a mut [u8]) -> (f64, &'a [u8]) {
        let (each, found) = self.least(|| self.once(out));
        (each, &out[..SPOT_BYTES * found])
    }

    /// The time of one of the Rust's passes, whose list must be ours, byte for byte, each record cut to the former one: this text tells no displacement.
    fn theirs(&self, pass: Pass, ours: &[u8]) -> f64 {
        let (each, found) = self.least(|| fixed::time(SET, pass, self.map()));
        assert_eq!(ours.len() / SPOT_BYTES, found, "spots of ours and of the {pass:?} pass");
        let cut: Vec<u8> = ours.chunks(SPOT_BYTES).flat_map(|record| &record[..OLD_SPOT_BYTES]).copied().collect();
        let mut theirs = vec![0u8; cut.len()];
        fixed::detect(SET, pass, self.map(), &mut theirs);
        assert!(cut == theirs, "the list differs from the {pass:?} pass's");
        each
    }
}

/// Room for a list, more than any of these maps takes.
pub fn room(side: usize) -> Vec<u8> {
    vec![0u8; SPOT_BYTES * side * side / 16]
}

/// A row for each peak; answers the list of the last.
fn rows(name: &str, side: usize, levels: &Levels, peaks: &[f32]) -> Vec<u8> {
    let mut out = room(side);
    let mut last = 0;
    for &peak in peaks {
        let asked = Asked { side, levels, peak };
        let (ours, list) = asked.ours(&mut out);
        let [reference, stream] = [Pass::Reference, Pass::Streaming].map(|pass| asked.theirs(pass, list));
        last = list.len();
        println!(
            "| {} | {} | {ours:.1} | {reference:.1} | {:.2} | {stream:.1} | {:.2} |",
            title(name, &asked), last / SPOT_BYTES, ours / reference, ours / stream
        );
    }
    out.truncate(last);
    out
}

/// What a row is about.
pub fn title(name: &str, asked: &Asked) -> String {
    let Asked { side, peak, .. } = *asked;
    let peak = if 0.0 < peak && peak < 1e-3 { format!("{peak:e}") } else { peak.to_string() };
    format!("{name}, {side} by {side}, peak {peak}")
}

/// Every map but the blobs with the peaks that are asked of it, those of a scaled one scaled with it.
pub fn others(side: usize, blobs: &Levels, mut rows: impl FnMut(&str, &Levels, &[f32])) {
    rows("faint (blobs times 1e-4)", &maps::scaled(blobs, 1e-4), &[1e-6, 0.0]);
    rows("quiet (blobs times 1e-5)", &maps::scaled(blobs, 1e-5), &[1e-7, 0.0]);
    rows("lost (blobs, one pixel in 100 lost)", &maps::lost(blobs), &[0.01, 0.0]);
    let plumes = uramsheg::four_levels(&fixed::set(SET).to_record(), side, side, 0, &maps::plumes(side)).expect("levels refused the raw map");
    rows("plumes (levels of a raw map, its noise below 0.1)", &plumes, &[0.1, 0.0]);
}

/// The peaks that are asked of the blobs.
pub const PEAKS: [f32; 4] = [1.0, 0.1, 0.01, 0.0];

/// Every map; answers the list of the blobs at peak 0.
pub fn table(side: usize, blobs: &Levels) -> Vec<u8> {
    println!("| map | spots | ours, ns a pixel | Rust's reference | ratio | Rust's streaming pass | ratio |");
    println!("|---|---|---|---|---|---|---|");
    let list = rows("blobs", side, blobs, &PEAKS);
    others(side, blobs, |name, levels, peaks| {
        rows(name, side, levels, peaks);
    });
    println!();
    list
}

/// The blobs at peak 0.01 on sides that double: where the cost grows in step with the pixels, the times a pixel stay alike.
pub fn sides() {
    println!("| map | spots | ours, ns a pixel | Rust's streaming pass | ratio |");
    println!("|---|---|---|---|---|");
    for side in [512, 1024, 2048, 4096] {
        let (levels, mut out) = (maps::blobs(side, fixed::set(SET).sigmas), room(side));
        let asked = Asked { side, levels: &levels, peak: 0.01 };
        let (ours, list) = asked.ours(&mut out);
        let stream = asked.theirs(Pass::Streaming, list);
        println!("| blobs, {side} by {side}, peak 0.01 | {} | {ours:.1} | {stream:.1} | {:.2} |", list.len() / SPOT_BYTES, ours / stream);
    }
}
