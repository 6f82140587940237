//! Prints the place of a token of a published file, as the judge's lists write it.

use places::{Place, published_name};
use std::process::ExitCode;

const USE: &str = "use: oracle/place FILE LINE TOKEN    FILE is scale_fit.rs, reference.rs, stream.rs or blur.rs; \\n in TOKEN is a line's end";

/// Every place of a token that begins on a line.
fn places(folder: &str, file: &str, line: &str, token: &str) -> Result<Vec<Place>, String> {
    let path = format!("{folder}/{}", published_name(file));
    let text = std::fs::read_to_string(&path).map_err(|error| format!("{path}: {error}"))?;
    let line: usize = line.parse().map_err(|_| USE.to_string())?;
    let mut lines = text.split_inclusive('\n');
    let start: usize = lines
        .by_ref()
        .take(line.saturating_sub(1))
        .map(str::len)
        .sum();
    let end = start + lines.next().map_or(0, str::len);
    let token = token.replace("\\n", "\n");
    let starts = text[start..]
        .match_indices(token.as_str())
        .map(|(at, _)| start + at);
    let here = starts.take_while(|&at| at < end);
    Ok(here
        .map(|at| Place::of(&text, at..at + token.len()))
        .collect())
}

fn main() -> ExitCode {
    let words: Vec<String> = std::env::args().skip(1).collect();
    let [folder, file, line, token] = &words[..] else {
        eprintln!("{USE}");
        return ExitCode::from(2);
    };
    match places(folder, file, line, token) {
        Ok(found) if found.is_empty() => {
            eprintln!("{file}, line {line}: no `{token}` begins there")
        }
        Ok(found) => {
            found
                .iter()
                .for_each(|place| println!("at: {file} {}", place.words()));
            return ExitCode::SUCCESS;
        }
        Err(error) => eprintln!("{error}"),
    }
    ExitCode::FAILURE
}
