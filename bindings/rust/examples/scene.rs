//! A scene: `scene SET` lists the spots of a scene of 40 rows by 4,130 cols, which is longer than a map may be and is cut into two tiles. It holds five round blobs
//! of known sizes, two of them at the seam.
//!
//! The levels of a scene are its caller's. Here they are written down: a round blob of size s that is blurred by a sigma t is one of size sqrt(s * s + t * t),
//! and its height falls by the factor s * s / (s * s + t * t).

use uramsheg::{Map, SceneSpot, Thresholds, tile_count, tile_pixels};

const ROWS: usize = 40;
const COLS: usize = 4_130;

/// All but `peak` have the values that the published text states.
const THRESHOLDS: Thresholds = Thresholds {
    peak: 50.0,
    sigma: 0.0,
    ratio: 12.1,
    low: 1.9027314,
    high: 4.1498866,
};

/// The blobs: x, y, size and height of each.
const BLOBS: [[f64; 4]; 5] = [
    [310.25, 22.7, 2.1, 320.0],
    [2047.0, 14.8, 3.0, 260.0],
    [4090.8, 10.3, 2.4, 400.0],
    [4091.6, 29.7, 2.7, 350.0],
    [4116.4, 18.1, 3.4, 240.0],
];

/// The scene's pixels at a sigma.
fn level(sigma: f64) -> Vec<f32> {
    let pixel = |place: usize| {
        let (row, col) = ((place % ROWS) as f64, (place / ROWS) as f64);
        let blob = |[x, y, size, height]: [f64; 4]| {
            let wide = size * size + sigma * sigma;
            let far = (col - x).powi(2) + (row - y).powi(2);
            height * size * size / wide * (-far / (2.0 * wide)).exp()
        };
        BLOBS.map(blob).iter().sum::<f64>() as f32
    };
    (0..ROWS * COLS).map(pixel).collect()
}

fn print_tiles() {
    let (down, across) = (tile_count(ROWS), tile_count(COLS));
    println!("{ROWS} rows by {COLS} cols: {down} by {across} tiles");
    for tile in 0..down * across {
        let (row, col) = (tile / across, tile % across);
        let (rows, cols) = (tile_pixels(ROWS, row), tile_pixels(COLS, col));
        println!(
            "tile ({row}, {col}): rows {} to {}, cols {} to {}",
            rows.start,
            rows.end - 1,
            cols.start,
            cols.end - 1
        );
    }
}

/// A line about a spot, with its place on its tile and in the scene.
fn line(found: &SceneSpot) -> String {
    let spot = found.sized.spot;
    let kind = if spot.is_max { "maximum" } else { "minimum" };
    let why = || {
        found
            .sized
            .missing
            .map_or("no size".into(), |why| why.to_string())
    };
    let size = found.sized.size;
    let size = size.map_or_else(why, |size| format!("size {size:.2}"));
    format!(
        "{kind} in tile ({}, {}) at x {:.2}, y {:.2}, in the scene at x {:.2}, y {:.2}: sigma {:.2}, peak {:.1}, {size}",
        found.tile_row,
        found.tile_col,
        spot.x,
        spot.y,
        found.x(),
        found.y(),
        spot.sigma,
        spot.peak
    )
}

fn main() -> Result<(), Box<dyn std::error::Error>> {
    let path = std::env::args().nth(1).ok_or("use: scene SET")?;
    let set = std::fs::read(path)?;
    // a set begins with its four sigmas
    let sigmas = set.as_chunks().0.iter().take(4);
    let levels: Vec<Vec<f32>> = sigmas
        .map(|&sigma| level(f32::from_le_bytes(sigma).into()))
        .collect();
    let [l0, l1, l2, l3] = &levels[..] else {
        return Err("the set has no four sigmas".into());
    };
    let map = Map {
        rows: ROWS,
        cols: COLS,
        octave: 0,
        levels: [l0, l1, l2, l3],
    };
    print_tiles();
    for found in uramsheg::scene_spots(&set, THRESHOLDS, map)? {
        println!("{}", line(&found));
    }
    Ok(())
}
