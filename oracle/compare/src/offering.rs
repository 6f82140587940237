//! The archive's reader of a partner's list by the hundred thousand lists, beside untouchable pages, against the judge's: lists of every kind beside maps of every
//! kind; every byte and every length; and what the published rules list.

use crate::judged::Judge;
use crate::own::{scene_of, told, whole};
use crate::partners::{Given, Partners};
use crate::plan;
use cases::Scene;
use cases::partners::{self, Kind, Offer, offers};
use cases::random::Random;
use cases::records::SPOT;
use judge::Rules;
use std::time::Instant;
use subject::archive::Archive;
use subject::{Reading, Reply, given_levels, listed, offer_one};

/// Apart from the families' own sources.
const SOURCE: u64 = 1 << 41;
/// Lists a time beside maps of every kind.
const LISTS: usize = 40_000;
/// Of how many maps one may be large.
const SELDOM: usize = 64;
/// The kinds of lists, in turn; the choices of faults go on from case to case.
const KINDS: [Kind; 6] = [
    Kind::Records,
    Kind::Places,
    Kind::Damaged,
    Kind::Mixed,
    Kind::Bytes,
    Kind::Mixed,
];
/// The faulty calls of one map begin with so many choices.
const CHOICES: [usize; 4] = [0, 32, 64, 96];
/// Of how many maps of the families the published rules' list of one is offered.
const PUBLISHED: usize = 3;

/// The archive and the judge on the same lists, counted: the first that they answer otherwise.
#[derive(Default)]
struct Both {
    archive: Archive,
    seen: Partners,
    first: Option<String>,
}

impl Both {
    /// One list: the archive's answer.
    fn offer(&mut self, label: &str, scene: &Scene, offer: &Offer) -> Option<Reading> {
        let sound = offer_one(&mut Judge::sound(), scene, offer);
        let given = offer_one(&mut self.archive, scene, offer);
        if sound != given {
            let words = || format!("{label}: {given:?}, by the judge {sound:?}");
            self.first.get_or_insert_with(words);
        }
        if let Some(reading) = given {
            let levels = given_levels(scene, offer);
            let given = Given {
                start: &offer.given,
                levels: levels.each_ref().map(Vec::as_slice),
                list: &offer.list,
            };
            self.seen.add(given, reading);
        }
        given
    }

    /// All lists of a kind that are made of a map's own.
    fn kind(&mut self, label: &str, seed: u64, kind: Kind, scene: &Scene, due: &[u8]) -> usize {
        let all = offers(seed, kind, scene, &[due.to_vec()]);
        for (place, offer) in all.iter().enumerate() {
            self.offer(&format!("{label}, {kind:?} list {place}"), scene, offer);
        }
        all.len()
    }
}

/// So many lists, map by map: two kinds each, and calls with faults.
fn many(seed: u64, lists: usize) -> bool {
    let begun = Instant::now();
    let mut both = Both::default();
    let (mut number, mut made) = (0, 0);
    while made < lists {
        let random = &mut Random::new(seed, SOURCE, number as u64);
        let scene = partners::map(random, number % SELDOM == 0);
        let due = listed(&mut Judge::sound(), &scene).unwrap_or_default();
        let label = format!("seed {seed}, map {number}");
        let choice = CHOICES[number % CHOICES.len()] + number / CHOICES.len() % 4 * 8;
        let kinds = [0, 1].map(|turn| KINDS[(2 * number + turn) % KINDS.len()]);
        for kind in kinds.into_iter().chain([Kind::Faulty(choice)]) {
            made += both.kind(&label, random.word(), kind, &scene, &due);
        }
        number += 1;
    }
    let missed = both.seen.not_reached();
    let missed = (!missed.is_empty()).then(|| format!("no list has {missed:?}"));
    let seconds = begun.elapsed().as_secs_f64();
    let words = format!("{number} maps, {}, {seconds:.1} s", both.seen.told());
    let fault = both.first.or(both.seen.odd()).or(missed);
    told("partners-lists-of-every-kind", fault, &words)
}

/// The next small map of three to nine spots from a number on, and its list.
fn rich(seed: u64, from: usize) -> (usize, Scene, Vec<u8>) {
    let mut number = from;
    loop {
        let random = &mut Random::new(seed, SOURCE + 1, number as u64);
        let scene = partners::map(random, false);
        let due = listed(&mut Judge::sound(), &scene).unwrap_or_default();
        number += 1;
        if (3..=9).contains(&(due.len() / SPOT)) && scene.rows * scene.cols < 1000 {
            return (number, scene, due);
        }
    }
}

/// Every value of every byte of the first, a middle and the last record, and every length to a record more, on some maps.
fn each(seed: u64, maps: usize) -> bool {
    let begun = Instant::now();
    let mut both = Both::default();
    let (mut number, mut bytes, mut lengths) = (0, 0, 0);
    for _ in 0..maps {
        let (next, scene, due) = rich(seed, number);
        number = next;
        let count = due.len() / SPOT;
        let mut ask = |list: Vec<u8>, what: &str| {
            let offer = partners::plain(&scene, list);
            both.offer(&format!("map {number}, {what}"), &scene, &offer);
        };
        for at in [0, count / 2, count - 1] {
            for place in 0..SPOT {
                for value in 0..=u8::MAX {
                    let mut list = due.clone();
                    list[SPOT * at + place] = value;
                    ask(list, &format!("record {at}, byte {place} {value}"));
                    bytes += 1;
                }
            }
        }
        let long = [&due[..], &due[due.len() - SPOT..]].concat();
        for length in 0..=long.len() {
            ask(long[..length].to_vec(), &format!("{length} bytes"));
            lengths += 1;
        }
    }
    let seconds = begun.elapsed().as_secs_f64();
    let words = format!(
        "{bytes} lists with every value of a byte, {lengths} of every length, {}, {seconds:.1} s",
        both.seen.found()
    );
    let fault = both.first.or(both.seen.odd());
    told("partners-every-byte-and-length", fault, &words)
}

/// The places of zero peaks in a list.
fn zero_peaks(list: &[u8]) -> Vec<usize> {
    let records = list.chunks_exact(SPOT).enumerate();
    let zero = |record: &[u8]| record[12..15] == [0; 3] && record[15] & 127 == 0;
    records.filter(|one| zero(one.1)).map(|one| one.0).collect()
}

/// The published rules' lists of maps of the families, and the same with the sign of each zero peak turned, which the published text leaves open: the reader
/// says yes to the first where they are the due ones bit for bit, and of the others that the first of these records is different.
fn published(seed: u64, times: usize) -> bool {
    let begun = Instant::now();
    let rules = Judge {
        rules: Rules::Published,
        ..Judge::sound()
    };
    let mut both = Both::default();
    let (mut maps, mut spots, mut yes, mut zeros, mut different) = (0, 0, 0, 0, 0);
    for family in ["list", "detect", "sized", "steep", "limits"] {
        plan::each(family, seed, times, |one| {
            let scene = scene_of(family, seed, &one).filter(|_| one.number % PUBLISHED == 0);
            let Some((scene, list)) = scene.and_then(|scene| taken(rules, scene)) else {
                return;
            };
            let label = format!("{family} {seed} {}", one.number);
            let reading = both.offer(&label, &scene, &partners::plain(&scene, list.clone()));
            maps += 1;
            spots += list.len() / SPOT;
            yes += usize::from(reading.is_some_and(|reading| reading.finding == 1));
            let peaks = zero_peaks(&list);
            let Some(&first) = peaks.first() else {
                return;
            };
            let mut list = list;
            peaks.iter().for_each(|at| list[SPOT * at + 15] ^= 128);
            let reading = both.offer(&label, &scene, &partners::plain(&scene, list));
            zeros += 1;
            different += usize::from(reading == Some(at(4, first)));
        });
    }
    let seconds = begun.elapsed().as_secs_f64();
    let words = format!(
        "{maps} maps of {spots} spots, yes to {yes}; {zeros} lists with the signs of zero peaks turned, {different} different at the first, {seconds:.1} s"
    );
    let hollow = (different == 0).then(|| "no list has a zero peak".to_string());
    let fault = both.first.or(both.seen.odd()).or(hollow);
    told("partners-by-the-published-rules", fault, &words)
}

/// A finding at a record.
fn at(finding: u32, record: usize) -> Reading {
    Reading {
        number: 0,
        finding,
        value: record as u64,
    }
}

/// A scene and its list by these rules, where it is not refused.
fn taken(rules: Judge, scene: Scene) -> Option<(Scene, Vec<u8>)> {
    match whole(rules, &scene) {
        (Some(Reply::Done(_)), list) => Some((scene, list)),
        _ => None,
    }
}

/// Lists of every kind, then every byte and length, then the published rules' lists.
pub fn run(seed: u64, times: usize) -> bool {
    many(seed, LISTS * times) & each(seed, times) & published(seed, times)
}
