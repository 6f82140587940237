//! Document 01's list program: one tile in, its records as hex digits out.

use crate::entries::{self, LONGEST};
use crate::record::SPOT;
use crate::{Answer, Map, Pass, Rules, Set, Thresholds};

const HEADER: usize = 528 + 4 * 8;
const PRINTED: usize = 1300;

/// What a whole input says.
struct Tile {
    set: Option<Set>,
    thresholds: Thresholds,
    rows: usize,
    cols: usize,
    octave: usize,
    levels: Vec<f32>,
}

fn word(input: &[u8], index: usize) -> u32 {
    let at = 528 + 4 * index;
    u32::from_le_bytes(input[at..at + 4].try_into().unwrap())
}

fn read(input: &[u8], longest: usize) -> Result<Tile, u32> {
    if input.len() < HEADER {
        return Err(2);
    }
    let [rows, cols, octave] = [5, 6, 7].map(|index| word(input, index) as usize);
    if rows > longest || cols > longest {
        return Err(1);
    }
    if input.len() != HEADER + 16 * rows * cols {
        return Err(2);
    }
    let threshold = |index| f32::from_bits(word(input, index));
    let pixel = |bytes: &[u8]| f32::from_le_bytes(bytes.try_into().unwrap());
    Ok(Tile {
        set: Set::from_record(&input[..528]),
        thresholds: Thresholds {
            peak: threshold(0),
            sigma: threshold(1),
            ratio: threshold(2),
            low: threshold(3),
            high: threshold(4),
        },
        rows,
        cols,
        octave,
        levels: input[HEADER..].chunks_exact(4).map(pixel).collect(),
    })
}

/// Detection on the tile, with room for the records to print.
fn found(tile: &Tile) -> Result<(usize, Vec<u8>), u32> {
    let size = tile.rows * tile.cols;
    let levels = core::array::from_fn(|k| &tile.levels[k * size..(k + 1) * size]);
    let map = Map {
        thresholds: tile.thresholds,
        rows: tile.rows,
        cols: tile.cols,
        octave: tile.octave,
        levels,
    };
    if let Some(number) = entries::detection_refusal(tile.set.is_some(), map) {
        return Err(number);
    }
    let set = tile.set.as_ref().ok_or(4u32)?;
    let mut out = vec![0; PRINTED * SPOT];
    match entries::detect(Rules::Document, Pass::Reference, set, map, &mut out) {
        Answer::Done(count) => {
            out.truncate(SPOT * count);
            Ok((count, out))
        }
        Answer::Refused { number, .. } => Err(number),
    }
}

/// What the list program prints; without the limit of 60, sides go to 4,096.
pub fn list_program(input: &[u8], limit_60: bool) -> Vec<u8> {
    let longest = if limit_60 { 60 } else { LONGEST };
    let text = match read(input, longest).and_then(|tile| found(&tile)) {
        Ok((count, records)) => {
            let mut lines: Vec<String> = records.chunks_exact(SPOT).map(hex).collect();
            lines.push(format!("found {count}\n"));
            lines.concat()
        }
        Err(number) => format!("refused {number}\n"),
    };
    text.into_bytes()
}

fn hex(record: &[u8]) -> String {
    let digits: String = record.iter().map(|byte| format!("{byte:02x}")).collect();
    digits + "\n"
}
