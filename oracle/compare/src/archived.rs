//! What the archive is asked beside the families: corrections by the million, and the octave count at every side.

use crate::judged::Judge;
use crate::own::told;
use cases::expand;
use std::time::Instant;
use subject::archive::Archive;
use subject::{Subject, answer, difference};

/// The longest side that detection takes.
const LONGEST: usize = 4096;

/// The archive's octave count against document 01's rule and the published function, for every shortest side to one past the longest.
pub fn octaves() -> bool {
    let mut archive = Archive::default();
    let mut fault = None;
    for side in 0..=LONGEST + 1 {
        for (rows, cols) in [(side, side), (side, LONGEST + 7), (LONGEST + 7, side)] {
            let sound = judge::octave_count_rule(rows, cols);
            let published = judge::octave_count_published(rows, cols);
            let given = archive.octave_count(rows, cols);
            if given != Some(sound) || published != sound {
                let words =
                    || format!("{rows} by {cols}: rule {sound}, Rust {published}, given {given:?}");
                fault.get_or_insert_with(words);
            }
        }
    }
    told(
        "archive-octaves",
        fault,
        &format!("every shortest side to {}", LONGEST + 1),
    )
}

/// The families of corrections.
const FAMILIES: [&str; 3] = ["correct", "overshoot", "causes"];

/// `count` corrections, a third of them with steps past the stationary point, a third with a size missing most often.
pub fn corrections(seed: u64, count: usize) -> bool {
    let begun = Instant::now();
    let (mut judge, mut archive) = (Judge::sound(), Archive::default());
    let (mut sizes, mut fault) = (0, None);
    for number in 0..count {
        let family = FAMILIES[number % FAMILIES.len()];
        let number = number / FAMILIES.len();
        let case = expand(family, seed, number);
        let sound = answer(&mut judge, &case).unwrap_or_default();
        let given = answer(&mut archive, &case).unwrap_or_default();
        sizes += usize::from(sound.first() == Some(&0));
        if sound != given {
            let words = || format!("{family} {seed} {number}: {}", difference(&sound, &given));
            fault.get_or_insert_with(words);
        }
    }
    let seconds = begun.elapsed().as_secs_f64();
    let seen = format!("{count} corrections, {sizes} sizes, {seconds:.1} s");
    told("archive-corrections", fault, &seen)
}
