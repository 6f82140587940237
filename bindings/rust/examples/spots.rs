//! Reads what the list program reads (set, thresholds, sides, octave, four levels) from standard input and prints the spots with their
//! moves, home pixels and sizes.

use std::io::Read;
use uramsheg::{Map, Thresholds};

fn main() -> Result<(), Box<dyn std::error::Error>> {
    let mut bytes = Vec::new();
    std::io::stdin().read_to_end(&mut bytes)?;
    if bytes.len() < 560 || (bytes.len() - 560) % 16 != 0 {
        return Err(
            "the input is a 528-byte set, five thresholds, rows, cols, octave and four levels"
                .into(),
        );
    }
    let (set, rest) = bytes.split_at(528);
    let words: Vec<u32> = rest
        .chunks(4)
        .map(|word| u32::from_le_bytes(word.try_into().unwrap()))
        .collect();
    let floats: Vec<f32> = words.iter().map(|&word| f32::from_bits(word)).collect();
    let thresholds = Thresholds {
        peak: floats[0],
        sigma: floats[1],
        ratio: floats[2],
        low: floats[3],
        high: floats[4],
    };
    let (rows, cols, octave) = (words[5] as usize, words[6] as usize, words[7] as usize);
    let quarter = (floats.len() - 8) / 4;
    let levels = [0, 1, 2, 3].map(|level| &floats[8 + level * quarter..][..quarter]);
    for sized in uramsheg::sized_spots(
        set,
        thresholds,
        Map {
            rows,
            cols,
            octave,
            levels,
        },
    )? {
        let spot = sized.spot;
        let kind = if spot.is_max { "maximum" } else { "minimum" };
        let why = || {
            sized
                .missing
                .map_or("no size".into(), |why| why.to_string())
        };
        let size = sized.size.map_or_else(why, |size| format!("size {size}"));
        println!(
            "{kind} at x {}, y {}, moved by {}, {}, home pixel ({}, {}): sigma {}, peak {}, {size}",
            spot.x, spot.y, spot.dx, spot.dy, sized.row, sized.col, spot.sigma, spot.peak
        );
    }
    Ok(())
}
