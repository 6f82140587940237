//! From a raw map to sizes: `levels SET MAP.csv` makes the map's four levels under a set record and lists their spots. A line of the map is a row, its
//! numbers parted by commas; nan is a lost pixel.

mod common;

use uramsheg::{Map, Thresholds};

/// All but `peak` have the values that the published text states.
const THRESHOLDS: Thresholds = Thresholds {
    peak: 50.0,
    sigma: 0.0,
    ratio: 12.1,
    low: 1.9027314,
    high: 4.1498866,
};

fn main() -> Result<(), Box<dyn std::error::Error>> {
    let paths: Vec<String> = std::env::args().skip(1).collect();
    let [set, map] = paths.as_slice() else {
        return Err("use: levels SET MAP.csv".into());
    };
    let set = std::fs::read(set)?;
    let (rows, cols, raw) = common::read_map(map)?;
    let lost = |floats: &[f32]| floats.iter().filter(|pixel| !pixel.is_finite()).count();
    println!("{rows} rows by {cols} cols, {} lost", lost(&raw));
    let levels = uramsheg::four_levels(&set, rows, cols, 0, &raw)?;
    for (number, level) in levels.iter().enumerate() {
        let least = level.iter().copied().fold(f32::INFINITY, f32::min);
        let most = level.iter().copied().fold(f32::NEG_INFINITY, f32::max);
        let lost = lost(level);
        println!("level {number}: {least:.2} to {most:.2}, {lost} lost");
    }
    let map = Map {
        rows,
        cols,
        octave: 0,
        levels: levels.each_ref().map(Vec::as_slice),
    };
    for sized in uramsheg::sized_spots(&set, THRESHOLDS, map)? {
        let spot = sized.spot;
        let kind = if spot.is_max { "maximum" } else { "minimum" };
        let why = || {
            sized
                .missing
                .map_or("no size".into(), |why| why.to_string())
        };
        let size = sized
            .size
            .map_or_else(why, |size| format!("size {size:.2}"));
        println!(
            "{kind} at x {:.2}, y {:.2}, home pixel ({}, {}): sigma {:.2}, peak {:.1}, {size}",
            spot.x, spot.y, sized.row, sized.col, spot.sigma, spot.peak
        );
    }
    Ok(())
}
