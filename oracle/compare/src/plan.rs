//! How many cases of each family a run takes, and the stored list made from the same families.

use crate::judged::Judge;
use crate::search;
use cases::homes::{KINDS, WALK};
use cases::levels::PAIRS;
use cases::scenes::ROUND;
use cases::{Case, Knob, deltas, desks, expand, partners, stores, turn};
use subject::answer;
use subject::stored::{Entry, Kept, Section};

/// Cases of a family in a bounded run and in the stored list.
pub const COUNTS: [(&str, usize); 36] = [
    ("list", 3000),
    ("detect", 1800),
    ("join", 1200),
    ("sized", 900),
    ("correct", 12_000),
    ("octaves", 140),
    ("downsample", 480),
    ("reader", 400),
    ("inner", 24 * 1000),
    ("wide", 7),
    ("turning", 3200),
    ("overshoot", 12_000),
    ("records", 800),
    ("floats", 4000),
    ("steep", 60),
    ("mirrored", 600),
    ("cancelling", 400),
    ("inflected", 1200),
    ("blanks", 2 * 6 * 6 * 16),
    ("limits", 1200),
    ("homes", WALK + 4 * KINDS * KINDS),
    ("levels", 1200),
    ("kernels", 1600),
    ("blurs", 4 * PAIRS),
    ("raw", 300),
    ("causes", 4000),
    ("statistics", 4000),
    ("feeds", 640),
    ("starts", 32 * 6 * 5),
    ("forged", 3600),
    ("scenes", ROUND),
    ("deltas", 16 * deltas::ROUND),
    ("old", 1600),
    ("desks", 3 * desks::ROUND),
    ("stores", 5 * stores::ROUND),
    ("partners", 10 * partners::ROUND),
];

/// Searches one case's edges: its seed, its number, and how often to try.
type Search = fn(u64, usize, usize) -> Vec<Knob>;

/// Scenes, corrections and statistics that are searched for edges, with the tries at each.
pub const SEARCHES: [(&str, usize, usize, Search); 4] = [
    ("edge", 3000, 2, search::scene_edges),
    ("size-edge", 4000, 2, search::size_edges),
    ("cause-edge", 1500, 2, search::cause_edges),
    ("statistic-edge", 1500, 2, search::statistic_edges),
];

/// One case with what reruns it.
pub struct Numbered {
    pub number: usize,
    pub knob: Option<Knob>,
    pub case: Case,
}

/// Every case of a family under a seed, `times` the bounded number, handed on one by one.
pub fn each(family: &str, seed: u64, times: usize, mut take: impl FnMut(Numbered)) {
    if let Some(&(_, count)) = COUNTS.iter().find(|entry| entry.0 == family) {
        for number in 0..count * times {
            take(Numbered {
                number,
                knob: None,
                case: expand(family, seed, number),
            });
        }
    }
    if let Some(&(_, count, tries, search)) = SEARCHES.iter().find(|entry| entry.0 == family) {
        for number in 0..count * times {
            for knob in search(seed, number, tries) {
                let case = turn(family, seed, number, knob);
                take(Numbered {
                    number,
                    knob: Some(knob),
                    case,
                });
            }
        }
    }
}

/// The families' names, edges last.
pub fn families() -> impl Iterator<Item = &'static str> {
    COUNTS
        .iter()
        .map(|entry| entry.0)
        .chain(SEARCHES.iter().map(|entry| entry.0))
}

/// The sound answers to a family's cases, as they are stored.
pub fn section(family: &str, seed: u64) -> Section {
    let mut entries = Vec::new();
    let mut judge = Judge::sound();
    each(family, seed, 1, |one| {
        let sound = answer(&mut judge, &one.case)
            .unwrap_or_else(|| panic!("no answer to {family} {}", one.number));
        entries.push(Entry {
            number: one.number,
            knob: one.knob,
            kept: Kept::of(family, &sound),
        });
    });
    Section {
        family: family.to_string(),
        seed,
        entries,
    }
}
