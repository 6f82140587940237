//! The driver: runs cases and compares a subject with the judge byte for byte.

#[cfg(feature = "archive")]
mod archived;
mod desks;
#[cfg(feature = "archive")]
mod fed;
#[cfg(feature = "archive")]
mod forged;
#[cfg(feature = "archive")]
mod histories;
mod judged;
#[cfg(feature = "archive")]
mod keeping;
#[cfg(feature = "archive")]
mod lanes;
mod moved;
#[cfg(feature = "archive")]
mod offering;
mod own;
mod partners;
mod plan;
#[cfg(feature = "probe")]
mod probed;
mod runs;
#[cfg(feature = "archive")]
mod scenes;
mod search;
#[cfg(feature = "archive")]
mod soak;
#[cfg(feature = "probe")]
mod steps;
mod stores;
mod tally;
mod tiles;

use cases::{Case, Knob, expand, turn};
use judge::Pass;
use judged::Judge;
use std::process::ExitCode;
use std::time::Instant;
use subject::process::Process;
use subject::stored::{read, replay, write};
use subject::{Subject, answer, difference};
use tally::Tally;

const USE: &str = "use: compare own [SEED [TIMES]]
     compare tally [SEED [TIMES]]
     compare run SEED TIMES PROGRAM [ARGUMENTS]
     compare archive SEED TIMES               (built with the feature `archive`; 2,000,000 corrections a time beside the families)
     compare fed SEED TIMES                   (built with the feature `archive`; every map of the families, column by column)
     compare forged SEED TIMES                (built with the feature `archive`; 1,500,000 calls a time on forged states)
     compare scenes SEED TIMES                (built with the feature `archive`; the family, and every fourth map as a scene)
     compare tiles SEED TIMES                 (built with the feature `archive`; 2,000 small scenes a time in small tiles)
     compare desks SEED TIMES                 (built with the feature `archive`; 3,000,000 calls a time of two desks on one table)
     compare stores SEED TIMES                (built with the feature `archive`; 3,000,000 calls a time on stores of spots)
     compare partners SEED TIMES              (built with the feature `archive`; 40,000 lists a time beside their maps, every byte and length)
     compare soak SEED MAPS [FIRST]           (built with the feature `archive`; from the map of number FIRST on)
     compare probe SEED CASES_A_FUNCTION      (built with the feature `probe`)
     compare steps SEED [EVERY]               (built with the feature `probe`; every 256th pattern where EVERY is not given)
     compare one FAMILY SEED NUMBER [PLACE VALUE_BITS] [-- PROGRAM [ARGUMENTS]]
     compare widest SEED                      (the archive too where it is built in)
     compare store FILE [SEED]
     compare stored FILE";

/// The seed of the bounded run and of the stored list.
const SEED: u64 = 1;

/// Small scenes cut into tiles in the bounded run.
#[cfg(feature = "archive")]
const CUT: usize = 2000;

/// Calls on forged states in the bounded run.
#[cfg(feature = "archive")]
const FORGED: usize = 1_500_000;

fn main() -> ExitCode {
    let arguments: Vec<String> = std::env::args().skip(1).collect();
    let words: Vec<&str> = arguments.iter().map(String::as_str).collect();
    let number = |place: usize, default: u64| {
        words
            .get(place)
            .map_or(default, |word| word.parse().expect(USE))
    };
    let sound = match words.first().copied() {
        Some("own") => own(number(1, SEED), number(2, 1) as usize),
        Some("tally") => tally(number(1, SEED), number(2, 1) as usize),
        Some("run") if words.len() > 3 => {
            let mut program = Process::new(arguments[3..].to_vec());
            run(number(1, SEED), number(2, 1) as usize, &mut program)
        }
        #[cfg(feature = "archive")]
        Some("archive") => archive(number(1, SEED), number(2, 1) as usize),
        #[cfg(feature = "archive")]
        Some("fed") => fed::run(number(1, SEED), number(2, 1) as usize),
        #[cfg(feature = "archive")]
        Some("forged") => forged::run(number(1, SEED), number(2, 1) as usize * FORGED),
        #[cfg(feature = "archive")]
        Some("scenes") => scenes::run(number(1, SEED), number(2, 1) as usize),
        #[cfg(feature = "archive")]
        Some("tiles") => tiles::run(
            "tiles",
            number(1, SEED),
            number(2, 1) as usize * CUT,
            &mut subject::archive::Archive::default(),
        ),
        #[cfg(feature = "archive")]
        Some("desks") => histories::run(number(1, SEED), number(2, 1) as usize),
        #[cfg(feature = "archive")]
        Some("stores") => keeping::run(number(1, SEED), number(2, 1) as usize),
        #[cfg(feature = "archive")]
        Some("partners") => offering::run(number(1, SEED), number(2, 1) as usize),
        #[cfg(feature = "archive")]
        Some("soak") if words.len() > 2 => soak::run(
            number(1, SEED),
            number(2, 1) as usize,
            number(3, 0) as usize,
        ),
        #[cfg(feature = "probe")]
        Some("probe") if words.len() > 2 => probed::run(number(1, SEED), number(2, 1) as usize),
        #[cfg(feature = "probe")]
        Some("steps") if words.len() > 1 => steps::run(number(1, SEED), number(2, 256) as u32),
        Some("one") if words.len() > 3 => one(&words[1..]),
        Some("widest") if words.len() > 1 => widest(number(1, SEED)),
        Some("store") if words.len() > 1 => store(words[1], number(2, SEED)),
        Some("stored") if words.len() > 1 => stored(words[1]),
        _ => {
            eprintln!("{USE}");
            return ExitCode::from(2);
        }
    };
    if sound {
        ExitCode::SUCCESS
    } else {
        ExitCode::FAILURE
    }
}

/// Every comparison that needs no subject.
fn own(seed: u64, times: usize) -> bool {
    let mut sound = own::octaves();
    sound &= own::envelopes(seed, times);
    sound &= own::builds(seed, times);
    sound &= own::passes(seed, times);
    sound &= own::blurs(seed, times);
    sound &= own::raw(seed, times);
    sound &= own::lost(seed, times);
    sound &= runs::narrowed(seed, times);
    sound &= runs::lists(
        "feeds-list-what-detection-lists",
        seed,
        times,
        &mut Judge::sound(),
    );
    sound &= own::untiled(seed, times);
    sound &= moved::old_lists(seed, times);
    sound &= tiles::run(
        "small-tiles-list-what-the-scene-lists",
        seed,
        400 * times,
        &mut Judge::sound(),
    );
    sound &= desks::apart(
        "desks-of-the-judge-apart",
        seed,
        400 * times,
        &mut Judge::sound(),
    );
    own::logarithms(seed, times);
    own::taps(seed, times);
    sound
}

/// What the cases reach; a gate that rejects nothing is told.
fn tally(seed: u64, times: usize) -> bool {
    judge::reset_counts();
    let mut tally = Tally::default();
    let mut judge = Judge::sound();
    for family in plan::families() {
        plan::each(family, seed, times, |one| {
            judge::reset_returns();
            let sound = match &one.case {
                Case::Fed { .. } => {
                    answer(tally.feeds.entry(family.into()).or_default(), &one.case)
                }
                Case::Tiled { .. } => answer(&mut tally.scenes, &one.case),
                Case::Stores { .. } => answer(&mut tally.stores, &one.case),
                Case::Partners { .. } => answer(&mut tally.partners, &one.case),
                Case::Desks { table, calls } => {
                    tally.desks.add_history(&mut judge, table, calls);
                    answer(&mut judge, &one.case)
                }
                case => answer(&mut judge, case),
            };
            tally.add_returns(&judge::returns());
            tally.add_kind(family, &one.case);
            if let Some(sound) = sound {
                tally.add(family, &one.case, &sound);
            }
        });
    }
    tally.print();
    let quiet: Vec<&str> = judge::counts()
        .iter()
        .filter(|gate| gate.1 == 0)
        .map(|gate| gate.0)
        .collect();
    let expected = ["extra admission test"];
    let holes: Vec<&&str> = quiet
        .iter()
        .filter(|gate| !expected.contains(gate))
        .collect();
    let fault = (!holes.is_empty()).then(|| format!("no case is rejected by: {holes:?}"));
    let admitted = quiet.contains(&"extra admission test");
    let fired = (!admitted).then(|| "it fires".to_string());
    let missed = tally.radii_not_reached();
    let missed = (!missed.is_empty()).then(|| format!("no level has the radius {missed:?}"));
    let [taken, untaken] = tally.odd_returns();
    let taken = (!taken.is_empty()).then(|| format!("a case takes {taken:?}"));
    let untaken = (!untaken.is_empty()).then(|| format!("no case takes {untaken:?}"));
    let apart = tally.pairs_not_reached();
    let apart = (!apart.is_empty()).then(|| format!("no edge parts {apart:?}"));
    let unfed = tally.answers_not_reached();
    let unfed = (!unfed.is_empty()).then(|| format!("no feed answers {unfed:?}"));
    let untiled = tally.scenes.not_reached();
    let untiled = (!untiled.is_empty()).then(|| format!("no scene answers {untiled:?}"));
    let unjoined = tally.joins_not_reached();
    let unjoined = (!unjoined.is_empty()).then(|| format!("no join answers {unjoined:?}"));
    let unasked = tally.desks.not_reached();
    let unasked = (!unasked.is_empty()).then(|| format!("no call of a desk has {unasked:?}"));
    own::told(
        "every-gate-rejects",
        fault,
        "the extra admission test aside",
    ) & own::told(
        "extra-admission-test-never-fires",
        fired,
        "over all these cases",
    ) & own::told("every-radius-is-reached", missed, "1 to 16")
        & own::told(
            "five-returns-are-never-taken",
            taken,
            "roots, largest root, scaled roots, energies, last quotient",
        )
        & own::told(
            "every-other-return-is-taken",
            untaken,
            "three of the statistic, two of the correction",
        )
        & own::told(
            "every-two-answers-meet-at-an-edge",
            apart,
            "a size, causes 1 and 2; a statistic, causes 1 to 3",
        )
        & own::told(
            "every-answer-of-a-feed-is-reached",
            unfed,
            "a start's 0, 1, 3, 4, 6 and 8; a column's 0, 2, 6 and 9",
        )
        & own::told(
            "every-answer-of-a-scene-is-reached",
            untiled,
            "0, 2, 3, 4, 8 and 10; 6 after no tile and after some; a tile that is detected twice",
        )
        & own::told(
            "every-answer-of-both-joins-is-reached",
            unjoined,
            "0, 1, 4, 5 for the length and for a record, 6; 5 for a displacement alone where there is one",
        )
        & own::told(
            "every-answer-of-a-desk-is-reached",
            unasked,
            "a claim's 0, 11 and 12, a write's 4 besides, a release's 0 and 11, a run's 0, 11, 1, 2, 3, 8 and 4; every two causes at once",
        )
        & own::told(
            "a-desk-is-answered-by-its-first-cause",
            tally.desks.odd(),
            "the length, the desk, the slot, its owner, its count; of a run the map's and the set's; of a write the record's",
        )
        & tally.stores.sound()
        & tally.partners.sound()
}

/// A subject against the judge: every family but the scenes, which `compare scenes` has.
fn run(seed: u64, times: usize, subject: &mut dyn Subject) -> bool {
    let mut sound = true;
    for name in plan::families().filter(|&name| name != "scenes") {
        sound &= family(name, seed, times, subject);
    }
    sound
}

/// One family: a subject against the judge; true where it offers none of it.
fn family(family: &'static str, seed: u64, times: usize, subject: &mut dyn Subject) -> bool {
    let mut judge = Judge::sound();
    let begun = Instant::now();
    let (mut compared, mut differing, mut fault) = (0, 0, None);
    plan::each(family, seed, times, |one| {
        let Some(given) = answer(subject, &one.case) else {
            return;
        };
        let sound = answer(&mut judge, &one.case).unwrap_or_default();
        compared += 1;
        if sound != given {
            differing += 1;
            let knob = one.knob.map_or(String::new(), |k| {
                format!(" {} {:08x}", k.place, k.value.to_bits())
            });
            let told = || {
                format!(
                    "{family} {seed} {}{knob}: {}",
                    one.number,
                    difference(&sound, &given)
                )
            };
            fault.get_or_insert_with(told);
        }
    });
    if compared == 0 {
        return true;
    }
    let seconds = begun.elapsed().as_secs_f64();
    let seen = format!("{compared} cases, {differing} differ, {seconds:.1} s");
    own::told(&format!("compare-{family}"), fault, &seen)
}

/// The archive against the judge: the families, the runs of feeds as lists, the octave count at every side, and corrections by the million.
#[cfg(feature = "archive")]
fn archive(seed: u64, times: usize) -> bool {
    let mut archive = subject::archive::Archive::default();
    run(seed, times, &mut archive)
        & runs::lists(
            "archive-feeds-list-what-detection-lists",
            seed,
            times,
            &mut archive,
        )
        & archived::octaves()
        & archived::corrections(seed, 2_000_000 * times)
}

/// One case alone: the judge's answer, and a program's beside it.
fn one(words: &[&str]) -> bool {
    let split = words
        .iter()
        .position(|&word| word == "--")
        .unwrap_or(words.len());
    let (named, program) = words.split_at(split);
    let (seed, number) = (named[1].parse().expect(USE), named[2].parse().expect(USE));
    let case = match named.get(3..5) {
        Some([place, bits]) => {
            let value = f32::from_bits(u32::from_str_radix(bits, 16).expect(USE));
            turn(
                named[0],
                seed,
                number,
                Knob {
                    place: place.parse().expect(USE),
                    value,
                },
            )
        }
        _ => expand(named[0], seed, number),
    };
    println!("{case:?}");
    let mut judge = Judge::sound();
    let sound = answer(&mut judge, &case).unwrap_or_default();
    println!(
        "{}: {}",
        judge.name(),
        String::from_utf8_lossy(&sound).escape_debug()
    );
    let command: Vec<String> = program
        .iter()
        .skip(1)
        .map(|word| word.to_string())
        .collect();
    if command.is_empty() {
        return true;
    }
    let mut subject = Process::new(command);
    match answer(&mut subject, &case) {
        Some(given) if given == sound => println!("{}: the same", subject.name()),
        Some(given) => {
            println!("{}: {}", subject.name(), difference(&sound, &given));
            return false;
        }
        None => println!("{} does not offer it", subject.name()),
    }
    true
}

/// One case with both sides longest: subjects against the judge.
fn widest_of(seed: u64, number: usize, subjects: &mut [(&str, &mut dyn Subject)]) -> bool {
    let case = expand("widest", seed, number);
    let sound = answer(&mut Judge::sound(), &case).unwrap_or_default();
    let reply: String = sound
        .iter()
        .take_while(|&&byte| byte != b':')
        .map(|&byte| char::from(byte))
        .collect();
    let mut all_sound = true;
    for (name, subject) in subjects {
        let begun = Instant::now();
        let given = answer(*subject, &case).unwrap_or_default();
        let fault = (sound != given).then(|| difference(&sound, &given));
        let seen = format!("{reply}, {:.1} s", begun.elapsed().as_secs_f64());
        all_sound &= own::told(&format!("widest-{name}"), fault, &seen);
    }
    all_sound
}

/// The streaming pass, and the archive where it is built in, against the reference; then the archive's levels of a raw map, and its scene of four tiles.
fn widest(seed: u64) -> bool {
    let mut streaming = Judge::streaming();
    #[cfg(feature = "archive")]
    {
        let mut archive = subject::archive::Archive::default();
        let spots = widest_of(
            seed,
            0,
            &mut [("streaming", &mut streaming), ("archive", &mut archive)],
        );
        widest_of(seed, 1, &mut [("levels", &mut archive)])
            & widest_of(seed, 2, &mut [("scene", &mut archive)])
            & spots
    }
    #[cfg(not(feature = "archive"))]
    widest_of(seed, 0, &mut [("streaming", &mut streaming)])
}

/// Writes the stored list.
fn store(path: &str, seed: u64) -> bool {
    let sections: Vec<_> = plan::families()
        .map(|family| plan::section(family, seed))
        .collect();
    for section in &sections {
        println!("{}: {} cases", section.family, section.entries.len());
    }
    let bytes = write(&sections);
    println!("{} bytes", bytes.len());
    std::fs::write(path, bytes).unwrap_or_else(|error| panic!("{path}: {error}"));
    true
}

/// The judge as built now against the stored list; the streaming pass against its maps too.
fn stored(path: &str) -> bool {
    let bytes = std::fs::read(path).unwrap_or_else(|error| panic!("{path}: {error}"));
    let sections = read(&bytes).unwrap_or_else(|| panic!("{path} is no stored list"));
    let mut all_sound = true;
    for section in &sections {
        for (pass, mut judge) in [("", Judge::sound()), ("-streaming", Judge::streaming())] {
            let maps = ["list", "detect", "sized", "wide", "steep", "edge"];
            if judge.pass == Pass::Streaming && !maps.contains(&section.family.as_str()) {
                continue;
            }
            let outcome = replay(section, &mut judge);
            let seen = format!("{} cases, {} differ", outcome.asked, outcome.differing);
            all_sound &= own::told(
                &format!("stored-{}{pass}", section.family),
                outcome.first,
                &seen,
            );
        }
    }
    all_sound
}
