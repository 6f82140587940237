//! The runs of the family `feeds` as lists: what a feed listed, put in order, against detection's list of the columns that it took.

use crate::judged::{Judge, from_judge, map_of, set_of};
use crate::own::{scene_of, told, whole};
use crate::plan;
use cases::records::SPOT;
use cases::{Case, Feed, Given, Scene};
use judge::feed::spots_of;
use subject::{Fed, Subject, difference, take_column};

/// Records by their order key, at one key the minimum before the maximum.
pub fn in_order(records: &[u8]) -> Vec<u8> {
    let key = |record: &[u8]| u32::from_le_bytes(core::array::from_fn(|k| record[32 + k]));
    let mut all: Vec<&[u8]> = records.chunks_exact(SPOT).collect();
    all.sort_by_key(|record| (key(record), record[38]));
    all.concat()
}

/// A feed, what it has listed, and the map of the columns that it has taken; the others are NaN.
struct Run {
    feed: Feed,
    scene: Scene,
    taken: usize,
    records: Vec<u8>,
}

impl Run {
    /// A feed started by a subject, unless it refuses.
    fn started(subject: &mut dyn Subject, feed: &Feed) -> Option<Run> {
        let mut feed = feed.clone();
        let start = feed.start.clone()?;
        let ring = feed.ring.each_ref().map(Vec::as_slice);
        subject.feed_start(&start, ring, &mut feed.state)?.ok()?;
        let size = start.rows * start.cols;
        let scene = Scene {
            set: from_judge(&judge::Set::from_record(&start.record)?),
            thresholds: start.thresholds,
            rows: start.rows,
            cols: start.cols,
            octave: start.octave,
            levels: core::array::from_fn(|_| vec![f32::NAN; size]),
        };
        Some(Run {
            feed,
            scene,
            taken: 0,
            records: Vec::new(),
        })
    }

    /// Gives a column, with the next room while it is refused for its room.
    fn give(&mut self, subject: &mut dyn Subject, given: &Given) {
        for &room in &given.rooms {
            let mut out = vec![given.fill; room];
            match take_column(subject, &mut self.feed, given, &mut out) {
                Some(Fed { number: 0, value }) => {
                    self.records.extend(&out[..SPOT * value as usize]);
                    return self.keep(given);
                }
                Some(Fed { number: 6, .. }) => {}
                _ => return,
            }
        }
    }

    /// Puts a taken column into the map.
    fn keep(&mut self, given: &Given) {
        let (first, rows) = (self.taken * self.scene.rows, self.scene.rows);
        for (level, column) in self.scene.levels.iter_mut().zip(&given.columns) {
            level[first..first + rows].copy_from_slice(column);
        }
        self.taken += 1;
    }
}

/// Every run of a subject against the judge's list of the same map.
pub fn lists(name: &str, seed: u64, times: usize, subject: &mut dyn Subject) -> bool {
    let (mut complete, mut stopped, mut spots, mut fault) = (0, 0, 0, None);
    plan::each("feeds", seed, times, |one| {
        let Case::Fed { feeds, given } = &one.case else {
            return;
        };
        let mut runs: Vec<Option<Run>> = feeds
            .iter()
            .map(|feed| Run::started(subject, feed))
            .collect();
        for one in given {
            if let Some(run) = &mut runs[one.feed] {
                run.give(subject, one);
            }
        }
        for run in runs.into_iter().flatten() {
            let due = whole(Judge::sound(), &run.scene).1;
            let listed = in_order(&run.records);
            let done = run.taken == run.scene.cols;
            complete += usize::from(done);
            stopped += usize::from(!done);
            spots += due.len() / SPOT;
            if due != listed {
                let words =
                    || format!("feeds {seed} {}: {}", one.number, difference(&due, &listed));
                fault.get_or_insert_with(words);
            }
        }
    });
    let seen = format!("{complete} runs to the end, {stopped} stopped early, {spots} spots");
    told(name, fault, &seen)
}

/// The spots of each column by a reference that is spared the others, against the whole reference's of that column.
pub fn narrowed(seed: u64, times: usize) -> bool {
    let (mut columns, mut spots, mut fault) = (0, 0, None);
    plan::each("sized", seed, times, |one| {
        let scene = scene_of("sized", seed, &one);
        let Some(scene) = scene.filter(|_| one.number % 4 == 0) else {
            return;
        };
        let (set, map) = (set_of(&scene.set), map_of(&scene));
        for column in 0..scene.cols {
            let [alone, sound] = [true, false].map(|alone| spots_of(&set, map, column, alone));
            columns += 1;
            spots += sound.len();
            if alone != sound {
                fault
                    .get_or_insert_with(|| format!("sized {seed} {}, column {column}", one.number));
            }
        }
    });
    let seen = format!("{columns} columns, {spots} spots");
    told("a-column-alone-equals-the-whole-reference", fault, &seen)
}
