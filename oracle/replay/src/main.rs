//! Replays the stored list against a list program or an archive; the published text is not needed.

use std::process::ExitCode;
use std::time::Instant;
use subject::Subject;
use subject::piped::Piped;
use subject::process::Process;
use subject::stored::{read, replay};

const USE: &str = "use: replay STORED_LIST PROGRAM [ARGUMENTS]
     replay STORED_LIST --archive                          (built with the feature `archive`)
     replay STORED_LIST --inner                            (built with the feature `probe`)
     replay STORED_LIST --answerer PROGRAM [ARGUMENTS]     (the answerer of another processor's archive)";

/// The subject that the words name.
fn named(command: Vec<String>) -> Box<dyn Subject> {
    #[cfg(feature = "archive")]
    if command[0] == "--archive" {
        return Box::new(subject::archive::Archive::default());
    }
    #[cfg(feature = "probe")]
    if command[0] == "--inner" {
        return Box::new(subject::probe::Probe);
    }
    if command[0] == "--answerer" && command.len() > 1 {
        return Box::new(Piped::new(&command[1..]));
    }
    Box::new(Process::new(command))
}

fn main() -> ExitCode {
    let mut arguments = std::env::args().skip(1);
    let Some(path) = arguments.next() else {
        eprintln!("{USE}");
        return ExitCode::from(2);
    };
    let command: Vec<String> = arguments.collect();
    if command.is_empty() {
        eprintln!("{USE}");
        return ExitCode::from(2);
    }
    let bytes = std::fs::read(&path).unwrap_or_else(|error| panic!("{path}: {error}"));
    let sections = read(&bytes).unwrap_or_else(|| panic!("{path} is no stored list"));
    let mut subject = named(command);
    let mut sound = true;
    for section in &sections {
        let begun = Instant::now();
        let outcome = replay(section, subject.as_mut());
        if outcome.offered == 0 {
            continue;
        }
        let word = if outcome.differing == 0 {
            "ok"
        } else {
            "FAILED"
        };
        let seconds = begun.elapsed().as_secs_f64();
        println!(
            "{word} replay-{} ({} cases, {} differ, {seconds:.1} s)",
            section.family, outcome.offered, outcome.differing
        );
        if let Some(first) = outcome.first {
            println!("first difference: {first}");
            sound = false;
        }
    }
    if sound {
        ExitCode::SUCCESS
    } else {
        ExitCode::FAILURE
    }
}
