//! The proved inner functions against the published ones, function by function.

use crate::judged::Judge;
use crate::own::told;
use crate::plan;
use cases::levels;
use cases::words::FUNCTIONS;
use cases::{Case, expand};
use std::collections::BTreeMap;
use std::time::{Duration, Instant};
use subject::probe::Probe;
use subject::{answer, difference};

/// What was seen of one function.
#[derive(Default)]
struct Seen {
    cases: usize,
    differing: usize,
    time: Duration,
    first: Option<String>,
}

/// The families of inner functions beside `inner`, each with the part of the count that it takes: a kernel and a blur are many floats' work.
const FAMILIES: [(&str, usize); 7] = [
    ("turning", 1),
    ("cancelling", 1),
    ("inflected", 1),
    ("floats", 1),
    ("statistics", 1),
    ("kernels", 4),
    ("blurs", 32),
];

/// What was seen, by function.
type All = BTreeMap<&'static str, Seen>;

/// So many cases of the family `inner` for each function, and their part over all of each of `FAMILIES`, shared among the processors.
pub fn run(seed: u64, count: usize) -> bool {
    let workers = std::thread::available_parallelism().map_or(1, usize::from);
    let mut all = All::new();
    std::thread::scope(|scope| {
        let share = |worker| scope.spawn(move || part(seed, count, worker, workers));
        let running: Vec<_> = (0..workers).map(share).collect();
        for worker in running {
            let seen = worker.join().expect("no comparison panics");
            seen.into_iter().for_each(|seen| add(&mut all, seen));
        }
    });
    let mut sound = true;
    for (function, count) in due(count) {
        let seen = all.remove(function).unwrap_or_default();
        let seconds = seen.time.as_secs_f64();
        let line = format!(
            "{} cases, {} differ, {seconds:.1} s",
            seen.cases, seen.differing
        );
        let unseen = || (seen.cases < count).then(|| format!("{count} cases were due"));
        sound &= told(
            &format!("probe-{function}"),
            seen.first.or_else(unseen),
            &line,
        );
    }
    sound
}

/// Each function with the cases that must be seen of it.
fn due(count: usize) -> Vec<(&'static str, usize)> {
    let [gaussian, kernel, blur] = levels::FUNCTIONS;
    let inner = FUNCTIONS.iter().map(|&function| (function, count));
    let made = [
        (gaussian, count / 8),
        (kernel, count / 8),
        (blur, count / 32),
    ];
    inner.chain(made).collect()
}

/// One worker's share of the cases.
fn part(seed: u64, count: usize, worker: usize, workers: usize) -> All {
    let mut all = All::new();
    let mut plain = |family: &str, number: usize| {
        let label = || format!("{family} {seed} {number}");
        one(expand(family, seed, number), label, &mut all);
    };
    for number in (worker..FUNCTIONS.len() * count).step_by(workers) {
        plain("inner", number);
    }
    for number in (worker..count).step_by(workers) {
        for (family, part) in FAMILIES {
            if number < count / part {
                plain(family, number);
            }
        }
    }
    if worker == 0 {
        edges(seed, count, &mut all);
    }
    all
}

/// The edges between a statistic and its causes, once for every 500,000 of the count.
fn edges(seed: u64, count: usize, all: &mut All) {
    let family = "statistic-edge";
    plan::each(family, seed, count.div_ceil(500_000), |edge| {
        let (number, knob) = (edge.number, edge.knob);
        one(
            edge.case,
            || format!("{family} {seed} {number} {knob:?}"),
            all,
        );
    });
}

fn add(all: &mut All, (function, seen): (&'static str, Seen)) {
    let sum = all.entry(function).or_default();
    sum.cases += seen.cases;
    sum.differing += seen.differing;
    sum.time += seen.time;
    sum.first = sum.first.take().or(seen.first);
}

/// One case, counted under its function; the first that differs is told by its words' patterns.
fn one(case: Case, label: impl Fn() -> String, all: &mut All) {
    let begun = Instant::now();
    let Some(given) = answer(&mut Probe, &case) else {
        return;
    };
    let Case::Inner {
        function, words, ..
    } = &case
    else {
        return;
    };
    let sound = answer(&mut Judge::sound(), &case).unwrap_or_default();
    let seen = all.entry(function).or_default();
    seen.cases += 1;
    if given != sound {
        seen.differing += 1;
        seen.first.get_or_insert_with(|| {
            let patterns: String = words
                .iter()
                .map(|word| format!(" {:08x}", word.to_bits()))
                .collect();
            let parted = difference(&sound, &given);
            format!("{}:{patterns}: {parted}", label())
        });
    }
    seen.time += begun.elapsed();
}
