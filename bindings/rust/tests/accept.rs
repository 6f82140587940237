//! A partner's list beside the one that is due, request No. 11, through the archive.

mod common;
#[path = "common/histories.rs"]
mod histories;

use common::set_t;
use histories::{Random, Tally};
use uramsheg::{Finding, Map, Refusal, SIZED_BYTES, SPOT_BYTES, Spot, Thresholds};

type Record = [u8; SPOT_BYTES];

/// Where a record has its key and its polarity.
const KEY: usize = 32;
const POLARITY: usize = 38;

/// A map with the set and the thresholds that it is judged by, and the list that is due for it.
struct Asked {
    set: Vec<u8>,
    thresholds: Thresholds,
    rows: usize,
    cols: usize,
    octave: usize,
    levels: [Vec<f32>; 4],
    due: Vec<Record>,
}

impl Asked {
    /// With the list that detection gives.
    fn new(
        set: Vec<u8>,
        thresholds: [f32; 5],
        sides: (usize, usize),
        levels: [Vec<f32>; 4],
    ) -> Asked {
        let [peak, sigma, ratio, low, high] = thresholds;
        let mut asked = Asked {
            set,
            thresholds: Thresholds {
                peak,
                sigma,
                ratio,
                low,
                high,
            },
            rows: sides.0,
            cols: sides.1,
            octave: 0,
            levels,
            due: Vec::new(),
        };
        asked.due = asked.detected();
        asked
    }

    /// Map M: one maximum at (4, 4).
    fn map_m() -> Asked {
        let mut levels = [0; 4].map(|_| vec![0.0; 90]);
        levels[0][4 * 9 + 4] = 0.25;
        levels[1][4 * 9 + 4] = -0.25;
        let thresholds = [1.0, 1.0, 10.0, 1.9027314, 4.1498866];
        Asked::new(set_t(), thresholds, (9, 10), levels)
    }

    /// Dozens of spots: pixels five apart that are not 0, each fourth of which lists a minimum and a maximum. The set's cubics are no parabolas, so that a curve
    /// may have both.
    fn dozens() -> Asked {
        let (rows, cols) = (44, 53);
        let mut set = set_t();
        for (word, entry) in [(4, 1.0), (5, -1.0), (16, -1.0), (17, 1.0), (18, -1.0)] {
            let entry: f32 = entry;
            set[4 * word..][..4].copy_from_slice(&entry.to_le_bytes());
        }
        let mut random = Random(1);
        let mut levels = [0; 4].map(|_| vec![0.0; rows * cols]);
        for place in 0..80 {
            let at = (4 + place % 10 * 5) * rows + 4 + place / 10 * 5;
            let some = [0; 4].map(|_| random.below(16) as f32 / 8.0 - 1.0);
            let samples = if place % 4 == 0 {
                [-0.5, 0.5, -1.0, -0.375]
            } else {
                some
            };
            for (level, sample) in levels.iter_mut().zip(samples) {
                level[at] = sample;
            }
        }
        let asked = Asked::new(set, [0.0, 0.0, 12.1, -1.0, 9.0], (rows, cols), levels);
        assert!(asked.due.len() > 48, "{} spots", asked.due.len());
        asked
    }

    fn map(&self) -> Map<'_> {
        Map {
            rows: self.rows,
            cols: self.cols,
            octave: self.octave,
            levels: self.levels.each_ref().map(Vec::as_slice),
        }
    }

    fn detected(&self) -> Vec<Record> {
        let spots = uramsheg::spots(&self.set, self.thresholds, self.map()).unwrap();
        spots.iter().map(Spot::to_record).collect()
    }

    fn accept(&self, list: &[u8]) -> Result<Finding, Refusal> {
        uramsheg::accept(&self.set, self.thresholds, self.map(), list)
    }

    fn found(&self, list: &[Record]) -> Result<Finding, Refusal> {
        self.accept(list.as_flattened())
    }

    /// What is to be found of a list, by the header's words. Which records are bad, the join says.
    fn plain(&self, list: &[Record]) -> Result<Finding, Refusal> {
        let mut sized = vec![0; list.len() * SIZED_BYTES];
        let records = list.as_flattened();
        uramsheg::join(&self.set, self.rows, self.cols, records, &mut sized)?;
        for index in 0..list.len().max(self.due.len()) {
            let (given, due) = match (list.get(index), self.due.get(index)) {
                (Some(given), Some(due)) => (given, due),
                (None, _) => return Ok(Finding::Absent(index)),
                (_, None) => return Ok(Finding::Extra(index)),
            };
            match order(given).cmp(&order(due)) {
                std::cmp::Ordering::Less => return Ok(Finding::Extra(index)),
                std::cmp::Ordering::Greater => return Ok(Finding::Absent(index)),
                std::cmp::Ordering::Equal if given == due => {}
                std::cmp::Ordering::Equal => return Ok(Finding::Different(index)),
            }
        }
        Ok(Finding::Accepted)
    }

    #[track_caller]
    fn assert_plain(&self, list: &[Record]) -> Result<Finding, Refusal> {
        let found = self.found(list);
        assert_eq!(found, self.plain(list));
        found
    }
}

/// Where a record stands in a list.
fn order(record: &Record) -> (u32, bool) {
    let spot = Spot::from_record(record);
    (spot.key, spot.is_max)
}

/// A record with other bytes from a place on.
fn with(mut record: Record, at: usize, bytes: &[u8]) -> Record {
    record[at..][..bytes.len()].copy_from_slice(bytes);
    record
}

/// A record with another key and another polarity.
fn at(record: Record, key: u32, polarity: u8) -> Record {
    with(with(record, KEY, &key.to_le_bytes()), POLARITY, &[polarity])
}

#[test]
fn map_ms_own_list_is_accepted_and_others_are_not() {
    let asked = Asked::map_m();
    let [own] = asked.due[..] else {
        panic!("{:?}", asked.due)
    };
    assert_eq!(asked.found(&[own]), Ok(Finding::Accepted));
    assert_eq!(asked.found(&[]), Ok(Finding::Absent(0)));
    assert_eq!(asked.found(&[own, own]), Ok(Finding::Extra(1)));
    for (key, polarity, due) in [
        (44, 1, Ok(Finding::Accepted)),
        (44, 0, Ok(Finding::Extra(0))),
        (43, 1, Ok(Finding::Extra(0))),
        (0, 0, Ok(Finding::Extra(0))),
        (45, 0, Ok(Finding::Absent(0))),
        (89, 1, Ok(Finding::Absent(0))),
        (90, 1, Err(Refusal::Records { index: 0 })),
        (44, 2, Err(Refusal::Records { index: 0 })),
    ] {
        let list = [at(own, key, polarity)];
        assert_eq!(asked.found(&list), due, "{key}, {polarity}");
    }
    // -0 for 0, in delta y, is another byte
    assert_eq!(
        asked.found(&[with(own, 47, &[0x80])]),
        Ok(Finding::Different(0))
    );
}

#[test]
fn every_byte_with_every_value_is_found_as_the_header_says() {
    let asked = Asked::map_m();
    let mut tally = Tally::default();
    for place in 0..SPOT_BYTES {
        for byte in 0..=255 {
            let list = [with(asked.due[0], place, &[byte])];
            let found = asked.assert_plain(&list);
            assert_eq!(found == Ok(Finding::Accepted), list == asked.due[..]);
            tally.add(format!("{found:?}"));
        }
    }
    tally.assert_all(&["Ok(Extra(0))", "Ok(Absent(0))"], 40);
    tally.assert_all(&["Ok(Different(0))", "Err(Records { index: 0 })"], 1_000);
    assert_eq!(tally.0.len(), 5);
}

#[test]
fn a_list_that_ends_early_is_absent_at_its_own_count() {
    let asked = Asked::dozens();
    for count in 0..asked.due.len() {
        let found = asked.assert_plain(&asked.due[..count]);
        assert_eq!(found, Ok(Finding::Absent(count)));
    }
    assert_eq!(asked.assert_plain(&asked.due), Ok(Finding::Accepted));
}

#[test]
fn a_record_left_out_is_absent() {
    let asked = Asked::dozens();
    for index in 0..asked.due.len() {
        let mut list = asked.due.clone();
        list.remove(index);
        assert_eq!(asked.assert_plain(&list), Ok(Finding::Absent(index)));
    }
}

#[test]
fn a_record_put_in_twice_or_moved_is_found_at_the_first_difference() {
    let asked = Asked::dozens();
    for from in 0..asked.due.len() {
        for to in 0..asked.due.len() {
            let mut twice = asked.due.clone();
            twice.insert(to, asked.due[from]);
            let due = match to {
                to if to < from => Finding::Absent(to),
                to if to == from => Finding::Extra(to + 1),
                to => Finding::Extra(to),
            };
            assert_eq!(asked.assert_plain(&twice), Ok(due), "{from} to {to}");
            let mut moved = asked.due.clone();
            moved.remove(from);
            moved.insert(to, asked.due[from]);
            let due = match to {
                to if to == from => Finding::Accepted,
                to => Finding::Absent(to.min(from)),
            };
            assert_eq!(asked.assert_plain(&moved), Ok(due), "{from} to {to}");
        }
    }
}

#[test]
fn a_minimum_and_a_maximum_at_one_pixel_are_kept_apart() {
    let asked = Asked::dozens();
    let pairs = (1..asked.due.len()).filter(|&index| {
        let [one, other] = [index - 1, index].map(|index| order(&asked.due[index]).0);
        one == other
    });
    let mut count = 0;
    for second in pairs {
        let first = second - 1;
        let mut list = asked.due.clone();
        list.swap(first, second);
        assert_eq!(asked.assert_plain(&list), Ok(Finding::Absent(first)));
        list = asked.due.clone();
        list[first][POLARITY] = 1;
        assert_eq!(asked.assert_plain(&list), Ok(Finding::Absent(first)));
        list = asked.due.clone();
        list[second][POLARITY] = 0;
        assert_eq!(asked.assert_plain(&list), Ok(Finding::Extra(second)));
        count += 1;
    }
    assert!(count > 10, "{count} pairs");
}

/// One edit of a list.
fn edit(random: &mut Random, asked: &Asked, list: &mut Vec<Record>) {
    let other = random.pick(&asked.due);
    let index = random.below(list.len() + 1);
    match random.below(8) {
        0 => list.insert(index, other),
        1 => list.truncate(index),
        _ if index == list.len() => list.push(other),
        2 => drop(list.remove(index)),
        3 => list[index] = other,
        4 => list[index][POLARITY] ^= 1,
        5 => {
            let key = random.below(asked.rows * asked.cols) as u32;
            list[index] = at(list[index], key, list[index][POLARITY]);
        }
        _ => list[index][random.below(SPOT_BYTES)] ^= 1 << random.below(8),
    }
}

#[test]
fn any_edits_of_the_due_list_are_found_as_the_header_says() {
    let asked = Asked::dozens();
    let mut random = Random(2);
    let mut tally = Tally::default();
    for round in 0..6_000 {
        let mut list = asked.due.clone();
        for _ in 0..round % 4 {
            edit(&mut random, &asked, &mut list);
        }
        let word = match asked.assert_plain(&list) {
            Ok(finding) => finding.number().to_string(),
            Err(refusal) => format!("refused {}", refusal.number()),
        };
        tally.add(word);
    }
    let words = ["1", "2", "3", "4", "refused 5"];
    tally.assert_all(&words, 200);
    assert_eq!(tally.0.len(), words.len());
}

#[test]
fn a_bad_record_is_refused_wherever_it_stands() {
    let asked = Asked::dozens();
    for index in 0..asked.due.len() + 2 {
        for difference in (0..asked.due.len()).step_by(5) {
            let mut list = asked.due.clone();
            list.extend([asked.due[0]; 2]);
            list[difference][16] ^= 1;
            list[index][39] = 1;
            list[asked.due.len() + 1][36] = 6; // of two, the first is told
            let refusal = Refusal::Records { index };
            assert_eq!(asked.assert_plain(&list), Err(refusal), "{difference}");
        }
    }
}

#[test]
fn a_list_is_whole_records_at_any_address() {
    let asked = Asked::dozens();
    for start in 0..4 {
        let mut bytes = vec![0xa5; start];
        bytes.extend(asked.due.as_flattened());
        for length in 0..=200 {
            let due = match length % SPOT_BYTES {
                0 => Ok(Finding::Absent(length / SPOT_BYTES)),
                _ => Err(Refusal::Records {
                    index: length / SPOT_BYTES,
                }),
            };
            assert_eq!(asked.accept(&bytes[start..][..length]), due, "{length}");
        }
        assert_eq!(asked.accept(&bytes[start..]), Ok(Finding::Accepted));
    }
}

/// What may be wrong with a call, in the order in which it is told.
const REFUSALS: [Refusal; 7] = [
    Refusal::Size,
    Refusal::Level,
    Refusal::Octave,
    Refusal::Thresholds {
        nan: [false, false, true, false, false],
    },
    Refusal::Set,
    Refusal::Records { index: 1 }, // the length
    Refusal::Records { index: 0 },
];

/// Makes one of them wrong, a level's length at the level of the number `way`.
fn spoil(asked: &mut Asked, list: &mut Vec<u8>, wrong: usize, way: usize) {
    match wrong {
        0 if way < 2 => asked.rows = 4_097,
        0 => asked.cols = 4_097,
        1 => drop(asked.levels[way].pop()),
        2 => asked.octave = 6 + way,
        3 => asked.thresholds.ratio = f32::NAN,
        4 => asked.set[524 + way] = 9,
        5 => drop(list.pop()),
        _ => list[39] = 1,
    }
}

#[test]
fn the_first_refusal_is_given() {
    for round in 0..4 << REFUSALS.len() {
        let (way, wrong) = (round % 4, round / 4);
        let mut asked = Asked::map_m();
        let mut list = asked.due.repeat(2).as_flattened().to_vec();
        let mut due = Ok(Finding::Extra(1));
        for (at, refusal) in REFUSALS.into_iter().enumerate().rev() {
            if wrong >> at & 1 == 1 {
                spoil(&mut asked, &mut list, at, way);
                due = Err(refusal);
            }
        }
        assert_eq!(asked.accept(&list), due, "{wrong:07b}, way {way}");
    }
}

#[test]
fn a_list_is_due_for_its_own_octave_set_and_thresholds() {
    let mut asked = Asked::dozens();
    let list = asked.due.clone();
    asked.octave = 5;
    assert_eq!(asked.found(&list), Ok(Finding::Different(0)));
    assert_eq!(asked.found(&asked.detected()), Ok(Finding::Accepted));
    asked.octave = 0;
    asked.thresholds.peak = f32::INFINITY;
    assert_eq!(asked.found(&list), Ok(Finding::Extra(0)));
    assert_eq!(asked.found(&[]), Ok(Finding::Accepted));
    asked.thresholds.peak = 0.0;
    asked.set = set_t();
    asked.due = asked.detected();
    let found = asked.assert_plain(&list).unwrap();
    assert!(!found.is_accepted(), "{found}");
    assert_eq!(asked.found(&asked.due), Ok(Finding::Accepted));
}

#[test]
fn sides_without_a_judged_pixel_have_the_empty_list() {
    let first = at([0; SPOT_BYTES], 0, 0);
    let first = with(first, 37, &[1]);
    for (rows, cols) in [
        (0, 0),
        (0, 4_096),
        (8, 8),
        (8, 9),
        (9, 8),
        (9, 9),
        (1, 4_096),
    ] {
        let levels = [0; 4].map(|_| vec![0.0; rows * cols]);
        let asked = Asked::new(set_t(), [0.0, 0.0, 10.0, 1.0, 4.0], (rows, cols), levels);
        assert_eq!(asked.found(&[]), Ok(Finding::Accepted), "{rows} by {cols}");
        let due = match rows * cols {
            0 => Err(Refusal::Records { index: 0 }), // a map of no pixels has none for a record
            _ => Ok(Finding::Extra(0)),
        };
        assert_eq!(asked.found(&[first]), due, "{rows} by {cols}");
    }
}

#[test]
fn findings_have_their_numbers_and_words() {
    for (number, finding, index, words) in [
        (
            1,
            Finding::Accepted,
            None,
            "accepted: the list is the one that is due",
        ),
        (2, Finding::Extra(7), Some(7), "record 7 is extra: "),
        (3, Finding::Absent(7), Some(7), "record 7 is absent: "),
        (4, Finding::Different(7), Some(7), "record 7 is different: "),
    ] {
        assert_eq!(Finding::from_number(number, 7), Some(finding));
        assert_eq!(finding.number(), number);
        assert_eq!(finding.index(), index);
        assert_eq!(finding.is_accepted(), number == 1);
        let said = finding.to_string();
        assert!(said.starts_with(words), "{said}");
    }
    // 0 stands beside a refusal, and is never yes
    for number in [0, 5, 257, u32::MAX] {
        assert_eq!(Finding::from_number(number, 0), None);
    }
}

#[test]
fn a_refused_list_is_told_by_its_record_and_a_threshold_by_its_name() {
    let mut asked = Asked::map_m();
    let mut list = asked.due.repeat(3);
    list[2][39] = 1;
    let said = asked.found(&list).unwrap_err().to_string();
    assert!(said.starts_with("the list is not a whole number of records, 48 bytes each"));
    assert!(
        said.ends_with("or its record 2 is bad for this map"),
        "{said}"
    );
    asked.thresholds.high = f32::NAN;
    let said = asked.found(&list).unwrap_err().to_string();
    assert!(
        said.starts_with("a threshold is not a number: high;"),
        "{said}"
    );
}
