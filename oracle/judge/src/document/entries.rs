//! The public entries of documents 01 and 02: the refusals in their order, then the published text.

use crate::causes;
use crate::here::with;
use crate::record::{self, OLD_SIZED, OLD_SPOT, SIZED, SPOT, Spot};
use crate::run::offered;
use crate::{Answer, Logs, Map, NoSize, Pass, Rules, Set, Thresholds, counting};

/// The longest side.
pub const LONGEST: usize = 4096;

fn refused(number: u32) -> Answer {
    Answer::Refused { number, index: 0 }
}

/// A NaN, of any pattern, among the five.
pub fn any_nan(thresholds: Thresholds) -> bool {
    let Thresholds {
        peak,
        sigma,
        ratio,
        low,
        high,
    } = thresholds;
    [peak, sigma, ratio, low, high].iter().any(|t| t.is_nan())
}

/// Detection's refusals, the first that applies: 1, 2, 3, 8, 4.
pub fn detection_refusal(good: bool, map: Map) -> Option<u32> {
    let Map {
        thresholds,
        rows,
        cols,
        octave,
        levels,
    } = map;
    if rows > LONGEST || cols > LONGEST {
        Some(1)
    } else if levels.iter().any(|level| level.len() != rows * cols) {
        Some(2)
    } else if octave > 5 {
        Some(3)
    } else if any_nan(thresholds) {
        Some(8)
    } else if !good {
        Some(4)
    } else {
        None
    }
}

/// The full count; the first whole records that fit are written and later bytes kept.
pub fn write_spots(spots: &[Spot], out: &mut [u8]) -> Answer {
    for (bytes, spot) in out.chunks_exact_mut(SPOT).zip(spots) {
        bytes.copy_from_slice(&record::laid(spot));
    }
    Answer::Done(spots.len())
}

/// The same with former records.
pub fn write_old_spots(spots: &[Spot], out: &mut [u8]) -> Answer {
    for (bytes, spot) in out.chunks_exact_mut(OLD_SPOT).zip(spots) {
        bytes.copy_from_slice(&record::old_laid(spot));
    }
    Answer::Done(spots.len())
}

/// Detection by one of the passes; the reference's rejections are counted.
pub fn detect(rules: Rules, pass: Pass, set: &Set, map: Map, out: &mut [u8]) -> Answer {
    if let Some(number) = detection_refusal(set.good(), map) {
        return refused(number);
    }
    let find = || offered::detect(pass, map).1;
    let spots = with(rules, Logs::Steps, set, || match pass {
        Pass::Reference => counting::counted(find),
        Pass::Streaming => find(),
    });
    write_spots(&spots, out)
}

/// A list as a join reads it: its records' bytes, those of their sized records, and when a record is readable.
struct Form {
    spot: usize,
    sized: usize,
    readable: fn(usize, usize, &[u8]) -> bool,
}

const PRESENT: Form = Form {
    spot: SPOT,
    sized: SIZED,
    readable: record::readable,
};

const FORMER: Form = Form {
    spot: OLD_SPOT,
    sized: OLD_SIZED,
    readable: record::old_readable,
};

/// A join's refusals, the first that applies: 1, 4, 5 with an index, 6.
fn join_refusal(
    form: &Form,
    set: &Set,
    (rows, cols): (usize, usize),
    list: &[u8],
    out: &[u8],
) -> Option<Answer> {
    let whole = list.len() / form.spot;
    if rows > LONGEST || cols > LONGEST {
        return Some(refused(1));
    }
    if !set.good() {
        return Some(refused(4));
    }
    if !list.len().is_multiple_of(form.spot) {
        return Some(Answer::Refused {
            number: 5,
            index: whole,
        });
    }
    let bad = list
        .chunks_exact(form.spot)
        .position(|bytes| !(form.readable)(rows, cols, bytes));
    if let Some(index) = bad {
        return Some(Answer::Refused { number: 5, index });
    }
    (out.len() < whole * form.sized).then_some(refused(6))
}

/// The whole number nearest to a place on the map, a half to the larger. Below 1 the f64 sum may be rounded, but never up to 1.
fn nearest(place: f32) -> u16 {
    (f64::from(place) + 0.5).floor() as u16
}

/// What a sized record has behind its spot record, of whichever form: its corrected sigma, its home pixel, whether a size was given, and why none was.
fn size_and_home(spot: &[u8]) -> [u8; 12] {
    let [x, y, sigma, _, samples @ ..] = record::floats(spot);
    let size = causes::size(|| offered::correct(&samples, sigma, record::is_max(spot)));
    let mut bytes = [0; 12];
    bytes[..4].copy_from_slice(&size.unwrap_or(0.0).to_le_bytes());
    bytes[4..6].copy_from_slice(&nearest(y).to_le_bytes());
    bytes[6..8].copy_from_slice(&nearest(x).to_le_bytes());
    bytes[8] = size.is_ok() as u8;
    bytes[9] = size.err().unwrap_or(0);
    bytes
}

/// The spot record, then its size and home.
pub fn sized(spot: &[u8]) -> Vec<u8> {
    [spot, &size_and_home(spot)].concat()
}

/// A join: each record of the list with its size.
fn joined(
    form: &Form,
    logs: Logs,
    set: &Set,
    (rows, cols): (usize, usize),
    list: &[u8],
    out: &mut [u8],
) -> Answer {
    if let Some(refusal) = join_refusal(form, set, (rows, cols), list, out) {
        return refusal;
    }
    with(Rules::Document, logs, set, || {
        let records = list.chunks_exact(form.spot);
        for (bytes, spot) in out.chunks_exact_mut(form.sized).zip(records) {
            bytes.copy_from_slice(&sized(spot));
        }
    });
    Answer::Done(list.len() / form.spot)
}

/// The join of a list.
pub fn join(
    logs: Logs,
    set: &Set,
    rows: usize,
    cols: usize,
    list: &[u8],
    out: &mut [u8],
) -> Answer {
    joined(&PRESENT, logs, set, (rows, cols), list, out)
}

/// The join of an old list, of records without a displacement.
pub fn join_old(
    logs: Logs,
    set: &Set,
    rows: usize,
    cols: usize,
    list: &[u8],
    out: &mut [u8],
) -> Answer {
    joined(&FORMER, logs, set, (rows, cols), list, out)
}

/// The correction: 4 for a set that is not good, 7 with its cause where there is no size.
pub fn correct(
    rules: Rules,
    logs: Logs,
    set: &Set,
    samples: [f32; 4],
    sigma: f32,
    is_max: bool,
) -> Result<f32, NoSize> {
    if !set.good() {
        return Err(NoSize {
            number: 4,
            cause: 0,
        });
    }
    let size = with(rules, logs, set, || {
        causes::size(|| offered::correct(&samples, sigma, is_max))
    });
    size.map_err(|cause| NoSize { number: 7, cause })
}

/// The octave count over whole numbers.
pub fn octave_count_rule(rows: usize, cols: usize) -> usize {
    match rows.min(cols) {
        0..10 => 0,
        10..=64 => 1,
        65..=128 => 2,
        129..=256 => 3,
        257..=512 => 4,
        513..=1024 => 5,
        _ => 6,
    }
}

/// The published octave count, by logarithm.
pub fn octave_count_published(logs: Logs, rows: usize, cols: usize) -> usize {
    with(Rules::Published, logs, &Set::t(), || {
        offered::octave_count(rows, cols)
    })
}

/// Every second pixel of every second column; refuses 1, 2, 6 and keeps what lies past the result.
pub fn downsample(
    rows: usize,
    cols: usize,
    level: &[f32],
    out: &mut [f32],
) -> Result<(usize, usize), u32> {
    if rows > LONGEST || cols > LONGEST {
        return Err(1);
    }
    if level.len() != rows * cols {
        return Err(2);
    }
    let half = with(Rules::Published, Logs::Steps, &Set::t(), || {
        offered::downsample(rows, cols, level)
    });
    let pixels = half.as_slice();
    out.get_mut(..pixels.len())
        .ok_or(6u32)?
        .copy_from_slice(pixels);
    Ok((half.nrows(), half.ncols()))
}
