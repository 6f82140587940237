//! The soak: detection's list on odd maps, and the feed's of the same, the archive's against the judge's; and how the archive reads the judge's list.

use crate::fed;
use crate::judged::{Judge, from_judge};
use crate::lanes::Lanes;
use crate::own::{told, whole};
use cases::odd::{ROWS, WALK, WAYS, detection, tightened};
use cases::partners::plain;
use cases::records::SPOT;
use cases::{Case, Scene, Set};
use subject::archive::Archive;
use subject::{Reading, answer, difference, offer_one};

/// What was seen of the maps of one way.
#[derive(Default)]
struct Seen {
    maps: usize,
    listing: usize,
    spots: usize,
    refused: usize,
    differing: usize,
    first: Option<String>,
}

impl Seen {
    /// Counts a map by the judge's answer: `done COUNT:` or `refused NUMBER:`, then the buffer. Gives the records that are written there.
    fn count<'a>(&mut self, sound: &'a [u8]) -> &'a [u8] {
        let end = sound.iter().position(|&byte| byte == b':').unwrap_or(0);
        let (words, list) = (String::from_utf8_lossy(&sound[..end]), &sound[end + 1..]);
        let spots = words.strip_prefix("done ").map(|count| count.parse());
        self.maps += 1;
        self.refused += usize::from(spots.is_none());
        let spots: usize = spots.and_then(Result::ok).unwrap_or(0);
        self.listing += usize::from(spots > 0);
        self.spots += spots;
        &list[..list.len().min(SPOT * spots)]
    }

    /// Compares the archive's answer with the judge's, which it gives.
    fn compare(&mut self, archive: &mut Archive, case: &Case, name: &str) -> Vec<u8> {
        let sound = answer(&mut Judge::sound(), case).unwrap_or_default();
        let given = answer(archive, case).unwrap_or_default();
        if sound != given {
            self.differing += 1;
            let words = || format!("{name}: {}", difference(&sound, &given));
            self.first.get_or_insert_with(words);
        }
        sound
    }

    fn tell(self, way: &str) -> bool {
        let Seen {
            maps,
            listing,
            spots,
            refused,
            differing,
            first,
        } = self;
        let seen = format!(
            "{maps} maps, {differing} answers differ, {listing} list {spots} spots, {refused} refused"
        );
        told(&format!("soak-{way}"), first, &seen)
    }
}

/// A map and what reports call it.
type Named<'a> = (&'a str, &'a Scene);

/// Lists read beside their maps: how many, and the first that is answered otherwise than it must be.
#[derive(Default)]
struct Readings {
    lists: usize,
    first: Option<String>,
}

impl Readings {
    /// A list, and what must be found of it at a record.
    fn ask(&mut self, archive: &mut Archive, named: Named, list: &[&[u8]], due: (u32, usize)) {
        let (name, scene) = named;
        let offer = plain(scene, list.concat());
        let given = offer_one(archive, scene, &offer);
        let due = Reading {
            number: 0,
            finding: due.0,
            value: due.1 as u64,
        };
        self.lists += 1;
        if given != Some(due) {
            self.first
                .get_or_insert_with(|| format!("{name}: {given:?}, must be {due:?}"));
        }
    }

    fn tell(self) -> bool {
        let lists = format!("{} lists", self.lists);
        told("soak-read", self.first, &lists)
    }

    /// The list that is due: yes; without one of its records: absent there; with that one twice: extra behind it.
    fn read(&mut self, archive: &mut Archive, named: Named, list: &[u8], turn: usize) {
        if named
            .1
            .thresholds
            .iter()
            .any(|threshold| threshold.is_nan())
        {
            return;
        }
        self.ask(archive, named, &[list], (1, 0));
        let Some(at) = turn.checked_rem(list.len() / SPOT) else {
            return;
        };
        let (before, rest) = list.split_at(SPOT * at);
        let (record, behind) = rest.split_at(SPOT);
        self.ask(archive, named, &[before, behind], (3, at));
        self.ask(archive, named, &[before, record, rest], (2, at + 1));
    }
}

/// The maps of a seed, from the number `first` on; one that lists a spot is asked again under thresholds which that spot just passes.
pub fn run(seed: u64, maps: usize, first: usize) -> bool {
    let fixed = 0..judge::fixed::NAMES.len();
    let fixed: Vec<Set> = fixed.map(|k| from_judge(&judge::fixed::set(k))).collect();
    let (mut archive, mut lanes) = (Archive::default(), Lanes::default());
    let mut all = WAYS.map(|_| Seen::default());
    let mut fed = fed::Seen::default();
    let mut readings = Readings::default();
    for number in first..first + maps {
        let (way, case) = detection(seed, number, &fixed);
        let seen = &mut all[way];
        let name = format!("seed {seed}, map {number}");
        let sound = seen.compare(&mut archive, &case, &name);
        let list = seen.count(&sound);
        if let Case::Detect { scene, room, .. } = &case {
            // a list that fills its room may be longer
            let full = list.len() == *room;
            let whole = full.then(|| whole(Judge::sound(), scene).1);
            let list = whole.as_deref().unwrap_or(list);
            fed.feed(&mut lanes, &name, (seed, number as u64), scene, list);
            readings.read(&mut archive, (&name, scene), list, number);
        }
        let spots: Vec<&[u8]> = list.chunks_exact(SPOT).collect();
        if let Some(spot) = spots.get(number % spots.len().max(1)) {
            let name = format!("{name}, just passed by a spot");
            seen.compare(&mut archive, &tightened(&case, spot), &name);
        }
    }
    tell(all, maps) & fed.tell("soak-fed") & readings.tell()
}

/// Tells what was seen of the maps of each way; where there are enough, that each has a spot.
fn tell(all: [Seen; WAYS.len()], maps: usize) -> bool {
    let quiet = all.iter().zip(WAYS).filter(|(seen, _)| seen.listing == 0);
    let quiet: Vec<&str> = quiet.map(|(_, way)| way).collect();
    let mut sound = true;
    for (seen, way) in all.into_iter().zip(WAYS) {
        sound &= seen.maps == 0 || seen.tell(way);
    }
    if maps >= ROWS * WALK {
        let hollow = (!quiet.is_empty()).then(|| format!("no spot in {quiet:?}"));
        let seen = format!("each number of rows from 1 to {ROWS}, spots in each kind of map");
        sound &= told("soak-reach", hollow, &seen);
    }
    sound
}
