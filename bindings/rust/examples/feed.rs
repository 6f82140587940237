//! Spots from a scanner: `feed SET ROWS COLS` reads columns from standard input and prints each spot as soon as it is known. It never holds more than five
//! columns of each level.
//!
//! Standard input is f32 little-endian and nothing else: for each column 0, 1, .. that of level 0, then of level 1, 2 and 3, each ROWS floats, row 0 first.
//! Levels are blurred; the example `columns` makes such a stream of a raw map: `columns SET examples/raw.csv | feed SET 60 90`.

use std::error::Error;
use std::io::Read;
use std::process::ExitCode;
use uramsheg::{Feed, Spot, Thresholds};

/// All but `peak` have the values that the published text states.
const THRESHOLDS: Thresholds = Thresholds {
    peak: 50.0,
    sigma: 0.0,
    ratio: 12.1,
    low: 1.9027314,
    high: 4.1498866,
};

/// The columns of a stream, to its end or to the first that is cut short.
struct Columns<R> {
    input: R,
    rows: usize,
    /// What was read for the last column.
    bytes: Vec<u8>,
    failed: Option<std::io::Error>,
}

impl<R: Read> Columns<R> {
    /// The bytes of one column of all four levels.
    fn due(&self) -> usize {
        16 * self.rows
    }

    /// Whether the stream ended inside a column.
    fn is_cut_short(&self) -> bool {
        !self.bytes.is_empty() && self.bytes.len() < self.due()
    }
}

impl<R: Read> Iterator for Columns<R> {
    type Item = [Vec<f32>; 4];

    fn next(&mut self) -> Option<Self::Item> {
        self.bytes.clear();
        let due = self.due();
        let mut part = self.input.by_ref().take(due as u64);
        self.failed = part.read_to_end(&mut self.bytes).err();
        if due == 0 || self.bytes.len() < due {
            return None;
        }
        let floats: Vec<f32> = self
            .bytes
            .as_chunks()
            .0
            .iter()
            .map(|&b| f32::from_le_bytes(b))
            .collect();
        Some([0, 1, 2, 3].map(|level| floats[level * self.rows..][..self.rows].to_vec()))
    }
}

/// A line about a spot that was found on a map of so many cols.
fn line(spot: &Spot, cols: usize) -> String {
    let kind = if spot.is_max { "maximum" } else { "minimum" };
    format!(
        "{kind} at x {:.2}, y {:.2}: sigma {:.2}, peak {:.1}, in column {}",
        spot.x,
        spot.y,
        spot.sigma,
        spot.peak,
        spot.key as usize % cols
    )
}

/// What a feed that stopped early has listed.
fn stopped(feed: &Feed) -> String {
    let listed = match feed.judged().last() {
        Some(last) => format!("the spots of the columns to {last} are listed"),
        None => "none is judged yet".into(),
    };
    let (taken, cols) = (feed.position(), feed.cols());
    format!("stopped after {taken} of {cols} columns: {listed}")
}

/// Feeds standard input, and says whether all columns came and no more.
fn run(words: &[String]) -> Result<bool, Box<dyn Error>> {
    let [set, rows, cols] = words else {
        return Err("use: feed SET ROWS COLS <COLUMNS".into());
    };
    let (set, rows, cols) = (std::fs::read(set)?, rows.parse()?, cols.parse()?);
    let mut feed = Feed::start(&set, THRESHOLDS, rows, cols, 0)?;
    let mut columns = Columns {
        input: std::io::stdin().lock(),
        rows,
        bytes: Vec::new(),
        failed: None,
    };
    let (mut count, mut refused) = (0, false);
    for spot in feed.spots(&mut columns) {
        match spot {
            // standard output is flushed at the end of each line
            Ok(spot) => println!("{}", line(&spot, cols)),
            Err(refusal) => eprintln!("refused {}: {refusal}", refusal.number()),
        }
        count += usize::from(spot.is_ok());
        refused = spot.is_err();
    }
    if let Some(error) = &columns.failed {
        eprintln!("the columns can't be read: {error}");
    } else if columns.is_cut_short() {
        let (number, came, due) = (feed.position(), columns.bytes.len(), columns.due());
        eprintln!("column {number} is cut short: {came} of {due} bytes came");
    }
    if !feed.is_complete() {
        eprintln!("{}", stopped(&feed));
    }
    println!("{count} spots");
    Ok(feed.is_complete() && !refused)
}

fn main() -> ExitCode {
    let words: Vec<String> = std::env::args().skip(1).collect();
    match run(&words) {
        Ok(true) => ExitCode::SUCCESS,
        Ok(false) => ExitCode::FAILURE,
        Err(error) => {
            eprintln!("{error}");
            ExitCode::FAILURE
        }
    }
}
