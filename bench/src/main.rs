//! Times the four levels of a raw map: ours and the Rust's blur; then detection on several maps: ours, the Rust's reference and its streaming pass; then the
//! feed on the same maps, the acceptance of our own lists of the blobs, and the sizing of the spots found: our join, and the Rust's correction. One thread, in
//! one run. `bench [SIDE]`; `bench feed [SIDE]` times the feed alone, `bench sides` detection alone, on four sides, `bench scene [SIDE]` a whole scene,
//! `bench store` a store's calls, `bench accept [SIDE]` the acceptance of lists on every map, and of long ones.
mod accept;
mod detection;
mod feed;
mod maps;
mod scene;
mod store;

use judge::{Logs, RawMap, Set, fixed};
use std::time::Instant;
use uramsheg::{SIZED_BYTES, SizedSpot, Spot};

/// The set of half-octave sigmas, one of those that stand as real constants in the judge.
const SET: usize = 1;
const RUNS: usize = 7;

/// Sigmas half an octave apart, from the root of 2 on.
const HALF_OCTAVES: [f32; 4] = [std::f32::consts::SQRT_2, 2.0, 2.0 * std::f32::consts::SQRT_2, 4.0];

/// All four levels of a raw map, ours and by the Rust's blur with 16 as its largest radius, both by our exp, run after run in turn; both must make the same bits.
fn time_levels(side: usize, pixels: &[f32]) {
    let mut set = Set::t();
    set.sigmas = HALF_OCTAVES;
    let record = set.to_record();
    let mut ours = [0; 4].map(|_| vec![0.0f32; side * side]);
    let mut theirs = ours.clone();
    println!("| raw map | octave | radii | ours, ns a pixel | Rust's blur | ratio |");
    println!("|---|---|---|---|---|---|");
    for octave in [0, 1] {
        let map = RawMap { rows: side, cols: side, octave, pixels };
        let [mut least, mut their_least] = [f64::INFINITY; 2];
        for _ in 0..RUNS {
            let began = Instant::now();
            let made = uramsheg::levels(&record, side, side, octave, pixels, ours.each_mut().map(Vec::as_mut_slice));
            least = least.min(began.elapsed().as_secs_f64());
            made.expect("the benchmark's raw map was refused");
            let began = Instant::now();
            judge::levels::make(Logs::Steps, &set, map, [true; 4], &mut theirs);
            their_least = their_least.min(began.elapsed().as_secs_f64());
        }
        let same = ours.iter().flatten().zip(theirs.iter().flatten()).all(|(one, other)| one.to_bits() == other.to_bits());
        assert!(same, "the levels differ from the Rust's");
        let radii = judge::levels::kernels(Logs::Steps, &set, octave).map(|kernel| kernel.radius.to_string());
        let each = |seconds: f64| seconds * 1e9 / (side * side) as f64;
        println!(
            "| {side} by {side} | {octave} | {} | {:.1} | {:.1} | {:.2} |",
            radii.join(" "), each(least), each(their_least), least / their_least
        );
    }
    println!();
}

/// How many sizes a second our join gives and the Rust's correction gives for the spots of a list; both must size the same number of spots.
fn time_sizes(set: &[u8; 528], side: usize, list: &[u8]) {
    let spots: Vec<Spot> = list.as_chunks().0.iter().map(Spot::from_record).collect();
    let mut sized = vec![0u8; spots.len() * SIZED_BYTES];
    let (ours, accepted) = fastest(|| {
        let began = Instant::now();
        uramsheg::join(set, side, side, list, &mut sized).expect("the join refused detection's list");
        let seconds = began.elapsed().as_secs_f64();
        (seconds, sized.as_chunks::<SIZED_BYTES>().0.iter().filter(|&record| SizedSpot::from_record(record).size.is_some()).count())
    });
    let time_rust = |logs| {
        fastest(|| {
            let began = Instant::now();
            let given = spots.iter().filter(|s| fixed::correct(logs, SET, s.samples, s.sigma, s.is_max).is_ok()).count();
            (began.elapsed().as_secs_f64(), given)
        })
    };
    let (steps, expected) = time_rust(Logs::Steps);
    let (rust, _) = time_rust(Logs::Rust);
    assert_eq!(accepted, expected, "sizes given by the join and by the Rust's correction with the same log2 and exp");
    let millions = |seconds: f64| spots.len() as f64 / seconds / 1e6;
    println!("| spots | sized | our join, millions a second | Rust's correction, its own log2 and exp | ratio | Rust's correction, our log2 and exp in Rust | ratio |");
    println!("|---|---|---|---|---|---|---|");
    println!(
        "| {} | {accepted} | {:.2} | {:.2} | {:.2} | {:.2} | {:.2} |",
        spots.len(), millions(ours), millions(rust), ours / rust, millions(steps), ours / steps
    );
}

/// The least seconds of several runs, and what the first gave.
fn fastest(mut run: impl FnMut() -> (f64, usize)) -> (f64, usize) {
    let results: Vec<(f64, usize)> = (0..RUNS).map(|_| run()).collect();
    let seconds = results.iter().map(|r| r.0).fold(f64::INFINITY, f64::min);
    (seconds, results[0].1)
}

/// The side that a word says, or the usual one.
fn side_of(word: Option<String>, usual: usize) -> usize {
    let about = "bench [SIDE | feed [SIDE] | scene [SIDE] | accept [SIDE] | sides | store]: SIDE is a whole number to 4096, a scene's to 16384";
    word.map_or(usual, |word| word.parse().expect(about))
}

fn main() {
    let mut words = std::env::args().skip(1).peekable();
    if words.next_if_eq("sides").is_some() {
        return detection::sides();
    }
    if words.next_if_eq("store").is_some() {
        return store::table();
    }
    if words.next_if_eq("scene").is_some() {
        return scene::table(side_of(words.next(), 8192));
    }
    if words.next_if_eq("accept").is_some() {
        return accept::table(side_of(words.next(), 1024));
    }
    let alone = words.next_if_eq("feed").is_some();
    let side = side_of(words.next(), 1024);
    let set = fixed::set(SET);
    let blobs = maps::blobs(side, set.sigmas);
    if alone {
        return feed::table(side, &blobs);
    }
    time_levels(side, &blobs[0]);
    let list = detection::table(side, &blobs);
    feed::table(side, &blobs);
    accept::of_blobs(side, &blobs);
    println!();
    time_sizes(&set.to_record(), side, &list);
}
