//! Lists that a partner might send with a map, each made of the due one: changed in its records, its bytes, its length or its order, or the list of another
//! map; and calls that are refused.

use crate::case::{Case, Scene, Start};
use crate::desks::{chosen, small};
use crate::families::{self, damage, full_of, latticed, under, without_nan};
use crate::feeds::{bad_record, blank};
use crate::maps::Levels;
use crate::random::Random;
use crate::records::{self, MOVED, SPOT};
use crate::scenes::spotted;
use crate::sets;

/// Where a record has its key, its octave, its index and its polarity.
pub const KEY: usize = 32;
pub const OCTAVE: usize = 36;
pub const INDEX: usize = 37;
pub const POLARITY: usize = 38;

/// The cases that go once through all choices of seven faults, two of eight cases with eight calls each, and lists of every other kind between.
pub const ROUND: usize = 4 * FAULTS / OFFERS;
const FAULTS: usize = 1 << 7;
const OFFERS: usize = 8;

/// The most records of a list that are changed one after the other; of a map with more pixels than this, two.
const FEW: usize = 8;
pub const LARGE: usize = 10_000;

/// How lists are made of the due one.
#[derive(Clone, Copy, Debug, PartialEq, Eq)]
pub enum Kind {
    /// As it is; each record left out, twice, moved, or swapped with the next; cut short; a foreign one put in.
    Records,
    /// One byte of a record changed: each byte, to several values.
    Bytes,
    /// The key or the polarity changed.
    Places,
    /// The lists of other octaves, thresholds and maps.
    Related,
    /// Lengths that are not whole; bad records before, at and behind the first difference.
    Damaged,
    /// Several changes at once.
    Mixed,
    /// All choices of faults, from this one on.
    Faulty(usize),
}

/// A list, and what the reader is given beside it: a map's numbers and set, and its levels, each cut to its length here or filled up with zeros.
#[derive(Clone, Debug)]
pub struct Offer {
    pub given: Start,
    pub lengths: [usize; 4],
    pub list: Vec<u8>,
}

impl Offer {
    /// The levels as they are given.
    pub fn levels(&self, scene: &Scene) -> Levels {
        let mut levels = scene.levels.clone();
        for (level, &length) in levels.iter_mut().zip(&self.lengths) {
            level.resize(length, 0.0);
        }
        levels
    }
}

/// A scene as the reader is given it.
fn start(scene: &Scene) -> Start {
    Start {
        record: scene.set.record().to_vec(),
        thresholds: scene.thresholds,
        rows: scene.rows,
        cols: scene.cols,
        octave: scene.octave,
    }
}

/// A list beside its map, with nothing odd about the call.
pub fn plain(scene: &Scene, list: Vec<u8>) -> Offer {
    Offer {
        given: start(scene),
        lengths: scene.levels.each_ref().map(Vec::len),
        list,
    }
}

/// A map that detection takes: of few spots, of many, of none, with a side of 0 to 9 or a long one; large ones only where asked for.
pub fn map(random: &mut Random, large: bool) -> Scene {
    let (rows, cols) = (random.from_to(9, 15), random.from_to(9, 15));
    let mut scene = match random.below(16) {
        0..=4 => families::lively(random),
        5..=7 => latticed(random, rows + 4, cols + 4),
        8..=10 => full_of(random, rows, cols),
        11 | 12 => {
            let number = random.below(4);
            small(random, number)
        }
        13 => families::scene(random),
        14 => {
            let (set, short) = (sets::real(random), random.pick(&[0, 1, 2, 7, 8, 9]));
            let (rows, cols) = random.pick(&[(short, cols), (rows, short), (short, short)]);
            under(random, set, rows, cols)
        }
        _ => long(random, large),
    };
    scene.thresholds = without_nan(scene.thresholds);
    scene
}

/// A map with a long side, and spots far apart or at every judged pixel; of a large one the keys of some are above 65,535.
fn long(random: &mut Random, large: bool) -> Scene {
    let (rows, cols) = match large && random.once_in(2) {
        true => random.pick(&[(9, 4096), (4096, 17), (300, 300)]),
        false => random.pick(&[(600, 9), (9, 256), (9, 255)]),
    };
    if rows * cols < LARGE && random.once_in(2) {
        return full_of(random, rows, cols);
    }
    let inner = |random: &mut Random, side: usize| random.from_to(4, side - 5);
    let places: Vec<(usize, usize)> = (0..12)
        .map(|_| (inner(random, rows), inner(random, cols)))
        .collect();
    spotted(random, (rows, cols), &places)
}

/// Maps whose lists may be taken for this one's: of another octave, under other thresholds, with a pixel changed, lost or of the other sign, or another map of
/// these sides.
fn related(random: &mut Random, scene: &Scene) -> Vec<Scene> {
    let mut all = Vec::new();
    let mut add = |change: &mut dyn FnMut(&mut Scene)| {
        let mut other = scene.clone();
        change(&mut other);
        all.push(other);
    };
    for octave in 0..6 {
        add(&mut |other| other.octave = octave);
    }
    for place in 0..5 {
        add(&mut |other| {
            let old = other.thresholds[place];
            other.thresholds[place] = random.pick(&[old.next_up(), 2.0 * old, 0.5 * old + 0.01]);
        });
    }
    add(&mut |other| other.thresholds = without_nan(families::thresholds(random, &scene.set)));
    add(&mut |other| other.levels.iter_mut().flatten().for_each(|p| *p = -*p));
    let pixels = scene.rows * scene.cols;
    for _ in 0..if pixels == 0 { 0 } else { 6 } {
        add(&mut |other| {
            let pixel = &mut other.levels[random.below(4)][random.below(pixels)];
            *pixel = random.pick(&[pixel.next_up(), -*pixel, *pixel * 1.01, f32::NAN]);
        });
    }
    add(&mut |other| *other = under(random, scene.set.clone(), scene.rows, scene.cols));
    all.iter_mut()
        .for_each(|other| other.thresholds = without_nan(other.thresholds));
    all
}

/// A list as its records.
type Records = Vec<[u8; SPOT]>;

fn records_of(list: &[u8]) -> Records {
    list.as_chunks().0.to_vec()
}

/// A record's key.
pub fn key(record: &[u8]) -> u32 {
    u32::from_le_bytes(core::array::from_fn(|k| record[KEY + k]))
}

fn put_key(record: &mut [u8], key: u32) {
    record[KEY..KEY + 4].copy_from_slice(&key.to_le_bytes());
}

/// A few of so many records: all, or the first, the last and others between.
fn some(random: &mut Random, scene: &Scene, count: usize) -> Vec<usize> {
    if scene.rows * scene.cols > LARGE && count > 2 {
        return vec![random.below(count), count - 1];
    }
    if count <= FEW {
        return (0..count).collect();
    }
    let mut all = vec![0, 1, count / 2, count - 2, count - 1];
    all.extend((5..FEW).map(|_| random.below(count)));
    all
}

/// A record that another detector might list on this map, at any of its pixels.
fn foreign(random: &mut Random, scene: &Scene) -> [u8; SPOT] {
    records::sound(random, &scene.set.sigmas, scene.rows, scene.cols)
}

/// The same beside a record of the list: at its key or the next, before it or behind it.
fn beside(random: &mut Random, scene: &Scene, record: &[u8; SPOT]) -> [u8; SPOT] {
    let mut new = match random.once_in(2) {
        true => *record,
        false => foreign(random, scene),
    };
    let last = (scene.rows * scene.cols).saturating_sub(1) as u32;
    let key = key(record);
    let near = [key, key, key.saturating_sub(1), key + 1, 0, last];
    put_key(&mut new, random.pick(&near).min(last));
    new[POLARITY] = random.below(2) as u8;
    new
}

/// A record made bad: in its displacement half of the time, else in another field.
fn spoilt(random: &mut Random, scene: &Scene, record: &[u8; SPOT]) -> [u8; SPOT] {
    let mut record = *record;
    if random.once_in(2) {
        records::spoil(random, scene.rows, scene.cols, &mut record);
        return record;
    }
    let far = 0.6f32.next_up();
    let odd = random.pick(&[far, -far, 1.0, f32::NAN, f32::INFINITY, f32::MIN]);
    let place = MOVED + 4 * random.below(2);
    record[place..place + 4].copy_from_slice(&odd.to_le_bytes());
    record
}

/// One record of a list left out, listed twice, moved or swapped, and the list cut short before it.
fn around(due: &Records, at: usize, other: usize) -> Vec<Records> {
    let with = |change: &dyn Fn(&mut Records)| {
        let mut list = due.clone();
        change(&mut list);
        list
    };
    let twice = |to: usize| with(&|list| list.insert(to, due[at]));
    let last = due.len() - 1;
    vec![
        with(&|list| {
            list.remove(at);
        }),
        with(&|list| list.truncate(at)),
        with(&|list| drop(list.drain(..at))),
        twice(at),
        twice(0),
        twice(due.len()),
        twice(other),
        with(&|list| {
            let record = list.remove(at);
            list.insert(other, record);
        }),
        with(&|list| list.swap(at, (at + 1).min(last))),
        with(&|list| list.swap(at, other)),
    ]
}

/// The due list as it is, none, in reverse, twice; each of some records left out and so on; foreign ones put in front, between and behind.
fn by_records(random: &mut Random, scene: &Scene, due: &Records) -> Vec<Records> {
    let mut all = vec![due.clone(), Vec::new(), due.repeat(2)];
    all.push(due.iter().rev().copied().collect());
    for at in some(random, scene, due.len()) {
        let other = random.below(due.len());
        all.extend(around(due, at, other));
        let new = beside(random, scene, &due[at]);
        for to in [at, at + 1] {
            let mut list = due.clone();
            list.insert(to, new);
            all.push(list);
        }
    }
    for at in [0, due.len() / 2, due.len()] {
        let mut list = due.clone();
        list.insert(at, foreign(random, scene));
        all.push(list);
    }
    all
}

/// The due list with a record changed.
fn changed(due: &Records, at: usize, change: impl FnOnce(&mut [u8; SPOT])) -> Records {
    let mut list = due.clone();
    change(&mut list[at]);
    list
}

/// Every byte of a record with a bit or more turned; each float of the other sign, or the float beside it.
fn by_bytes(random: &mut Random, due: &Records) -> Vec<Records> {
    let mut all = Vec::new();
    if due.is_empty() {
        return all;
    }
    let any = random.below(due.len());
    let at = random.pick(&[0, due.len() - 1, any, any]);
    for place in 0..SPOT {
        let bits = random.from_to(1, 255) as u8;
        for bits in [1, 128, bits] {
            all.push(changed(due, at, |record| record[place] ^= bits));
        }
        let value = random.pick(&[0, 255, 1, 2, 5, 6]);
        all.push(changed(due, at, |record| record[place] = value));
    }
    for float in [0, 4, 8, 12, 16, 20, 24, 28, MOVED, MOVED + 4] {
        for to in [f32::next_up, f32::next_down, |_| 0.0, |_| -0.0] {
            all.push(changed(due, at, |record| {
                let old = f32::from_le_bytes(core::array::from_fn(|k| record[float + k]));
                record[float..float + 4].copy_from_slice(&to(old).to_le_bytes());
            }));
        }
    }
    all
}

/// Some records at another key, or of the other polarity: a key beside, a byte of it more or less, the neighbours' keys, the map's last one and past it.
fn by_places(random: &mut Random, scene: &Scene, due: &Records) -> Vec<Records> {
    let mut all = Vec::new();
    for at in some(random, scene, due.len()) {
        let own = key(&due[at]);
        let pixels = (scene.rows * scene.cols) as u32;
        let (before, behind) = (at.saturating_sub(1), (at + 1).min(due.len() - 1));
        let mut keys = vec![0, pixels - 1, pixels, key(&due[before]), key(&due[behind])];
        for by in [0, 1, 256, 65536] {
            keys.extend([own.wrapping_add(by), own.wrapping_sub(by)]);
        }
        for key in keys {
            let turned = random.once_in(4);
            all.push(changed(due, at, |record| {
                put_key(record, key);
                record[POLARITY] ^= u8::from(turned);
            }));
        }
        all.push(changed(due, at, |record| record[POLARITY] ^= 1));
        all.push(changed(due, at, |record| {
            record[POLARITY] ^= 1;
            record[0] ^= 1;
        }));
    }
    all
}

/// A list with so many changes of any kind, those that make a record bad aside.
fn mixed(random: &mut Random, scene: &Scene, due: &Records, changes: usize) -> Records {
    let mut list = due.clone();
    for _ in 0..changes {
        let (at, to) = (random.below(list.len() + 1), random.below(list.len() + 1));
        match (random.below(9), list.get(at).copied()) {
            (0, Some(_)) => {
                list.remove(at);
            }
            (1, Some(record)) => list.insert(to, record),
            (2, Some(_)) => {
                let record = list.remove(at);
                list.insert(to.min(list.len()), record);
            }
            (3, Some(record)) => list.insert(at, beside(random, scene, &record)),
            (4, Some(record)) => list[at] = beside(random, scene, &record),
            (5, Some(_)) => list[at][random.pick(&[0, 12, 16, 31, MOVED, SPOT - 4])] ^= 1,
            (6, Some(_)) => list[at][OCTAVE] = random.below(6) as u8,
            (7, _) => list.truncate(to),
            _ => list.insert(at, foreign(random, scene)),
        }
    }
    list
}

/// A bad record put into a list, or in place of one of its own.
fn with_bad(random: &mut Random, scene: &Scene, list: &mut Records) {
    let at = random.below(list.len() + 1);
    let sound = foreign(random, scene);
    let sound = list.get(at).unwrap_or(&sound);
    let bad = spoilt(random, scene, sound);
    match random.once_in(2) || at == list.len() {
        true => list.insert(at, bad),
        false => list[at] = bad,
    }
}

/// Lengths off by some bytes, of the due list and of others; lists with one bad record or two, otherwise due or not.
fn damaged(random: &mut Random, scene: &Scene, due: &Records) -> Vec<Vec<u8>> {
    let mut all = Vec::new();
    for over in [1, random.from_to(2, SPOT - 2), SPOT - 1] {
        let mut list = due.concat();
        list.extend((0..over).map(|_| random.word() as u8));
        all.push(list);
        let mut list = due.concat();
        list.truncate(list.len().saturating_sub(over));
        all.push(list);
    }
    for turn in 0..24 {
        let changes = random.pick(&[0, 1, 3]);
        let mut list = mixed(random, scene, due, if turn < 6 { 0 } else { changes });
        for _ in 0..random.from_to(1, 2) {
            with_bad(random, scene, &mut list);
        }
        let mut list = list.concat();
        if turn % 8 == 7 {
            list.truncate(list.len() - random.from_to(1, SPOT - 1));
        }
        all.push(list);
    }
    all
}

/// A call with faults: of the sides, a level, the octave, a threshold, the set, the list's length, a record; its list due but for these, or not.
fn faulty(random: &mut Random, scene: &Scene, due: &Records, choice: usize) -> Offer {
    let [size, level, octave, nan, bad, length, record] = chosen(choice % FAULTS);
    let changes = random.pick(&[0, 0, 1, 2]);
    let mut list = mixed(random, scene, due, changes);
    if record {
        with_bad(random, scene, &mut list);
    }
    let mut list = list.concat();
    if length {
        let over = random.from_to(1, SPOT - 1);
        list.extend((0..over).map(|_| random.word() as u8));
    }
    let mut offer = plain(scene, list);
    let given = &mut offer.given;
    if size {
        let mut long = scene.clone();
        damage(random, &mut long, [true, false, false, false]);
        (given.rows, given.cols) = (long.rows, long.cols);
        offer.lengths = long.levels.each_ref().map(Vec::len);
    }
    if level {
        let length = &mut offer.lengths[random.below(4)];
        let own = *length;
        *length = random.pick(&[own + 1, own.max(1) - 1, own + 7, 2 * own + 1]);
    }
    if octave {
        given.octave = random.pick(&[6, 7, 255, 256, usize::MAX]);
    }
    if nan {
        blank(random, &mut given.thresholds);
    }
    if bad {
        given.record = bad_record(random);
    }
    offer
}

/// What is offered for a map, of a kind: its due list and those of the related maps are given.
pub fn offers(seed: u64, kind: Kind, scene: &Scene, lists: &[Vec<u8>]) -> Vec<Offer> {
    let random = &mut Random::new(seed, SOURCE, 0);
    let due = &records_of(&lists[0]);
    let joined = |all: Vec<Records>| all.iter().map(|list| list.concat()).collect();
    let lists: Vec<Vec<u8>> = match kind {
        Kind::Faulty(first) => {
            return (first..first + OFFERS)
                .map(|choice| faulty(random, scene, due, choice))
                .collect();
        }
        Kind::Related => lists.to_vec(),
        Kind::Records => joined(by_records(random, scene, due)),
        Kind::Bytes => joined(by_bytes(random, due)),
        Kind::Places => joined(by_places(random, scene, due)),
        Kind::Damaged => damaged(random, scene, due),
        Kind::Mixed => {
            let some = |_| {
                let changes = random.from_to(1, 6);
                mixed(random, scene, due, changes)
            };
            joined((0..24).map(some).collect())
        }
    };
    lists.into_iter().map(|list| plain(scene, list)).collect()
}

/// Apart from the families' own sources.
const SOURCE: u64 = 1 << 40;

/// The case of a number: of eight one each with records left out and the like, bytes changed, keys changed, related maps, bad records, several changes; two with
/// all choices of faults in turn.
pub fn offered(random: &mut Random, number: usize) -> Case {
    let kind = match number % 8 {
        0 => Kind::Records,
        1 => Kind::Bytes,
        2 => Kind::Places,
        3 => Kind::Related,
        4 => Kind::Damaged,
        5 => Kind::Mixed,
        turn => Kind::Faulty((number / 8 * 2 + turn - 6) * OFFERS % FAULTS),
    };
    let large = matches!(kind, Kind::Records | Kind::Places | Kind::Faulty(_));
    let scene = map(random, large);
    let related = match kind {
        Kind::Related => related(random, &scene),
        _ => Vec::new(),
    };
    Case::Partners {
        scene,
        related,
        kind,
        seed: random.word(),
    }
}
