//! Whole scenes by the archive: the family's answers against the judge's, and what they list, put back into the scene, against the judge's list of it as one
//! map; then maps of the other families as scenes of one tile.

use crate::fed::{FAMILIES, fed_scene};
use crate::judged::Judge;
use crate::own::told;
use crate::tiles::{put_back, untiled};
use crate::{family, plan};
use cases::feeds::start_of;
use cases::scenes::{RECORD, STEP};
use cases::{Case, Scene, Start};
use judge::Map;
use subject::archive::Archive;
use subject::{Fed, Subject, Tiling, answer, difference};

/// The archive, each scene that it takes put back and compared.
#[derive(Default)]
struct PutBack {
    archive: Archive,
    scenes: usize,
    spots: usize,
    first: Option<String>,
}

impl PutBack {
    /// Compares what a scene listed with the judge's untiled list.
    fn compare(&mut self, given: &Start, levels: [&[f32]; 4], records: &[u8]) {
        let map = Map {
            thresholds: given.thresholds.into(),
            rows: given.rows,
            cols: given.cols,
            octave: given.octave,
            levels,
        };
        let due = untiled(&judge::Set::unchecked(&given.record), map);
        self.scenes += 1;
        self.spots += due.len();
        if put_back(records, STEP, given.cols) != due {
            let words = || format!("{} by {}, {} spots", given.rows, given.cols, due.len());
            self.first.get_or_insert_with(words);
        }
    }
}

impl Subject for PutBack {
    fn name(&self) -> String {
        self.archive.name()
    }

    fn scene(&mut self, given: &Start, levels: [&[f32]; 4], lent: Tiling<'_>) -> Option<Fed> {
        let Tiling { slices, out } = lent;
        let written = Tiling {
            slices,
            out: &mut *out,
        };
        let fed = self.archive.scene(given, levels, written)?;
        if fed.number == 0 {
            self.compare(given, levels, &out[..RECORD * fed.value as usize]);
        }
        Some(fed)
    }
}

/// A map as a scene, its slices of exactly its size.
fn as_scene(scene: Scene) -> Case {
    let size = scene.rows * scene.cols;
    Case::Tiled {
        given: start_of(&scene),
        levels: scene.levels,
        slices: [size; 4],
        rooms: vec![2 * RECORD * size],
        fill: 0x5a3c_9601,
    }
}

/// Every fourth map of the families, with sides to 4,096, as a scene.
fn maps(seed: u64, times: usize, subject: &mut dyn Subject) -> bool {
    let (mut maps, mut differing, mut first) = (0, 0, None);
    for family in FAMILIES {
        plan::each(family, seed, times, |one| {
            let scene = fed_scene(family, seed, &one);
            let sound = |scene: &Scene| scene.rows.max(scene.cols) <= 4096 && one.number % 4 == 0;
            let Some(scene) = scene.filter(sound) else {
                return;
            };
            maps += 1;
            let case = as_scene(scene);
            let [sound, given] = [&mut Judge::sound() as &mut dyn Subject, &mut *subject]
                .map(|asked| answer(asked, &case).unwrap_or_default());
            if sound != given {
                differing += 1;
                let words = || {
                    format!(
                        "{family} {seed} {}: {}",
                        one.number,
                        difference(&sound, &given)
                    )
                };
                first.get_or_insert_with(words);
            }
        });
    }
    let seen = format!("{maps} maps, {differing} differ");
    told("scenes-of-one-tile", first, &seen)
}

/// The family, then the maps.
pub fn run(seed: u64, times: usize) -> bool {
    let mut subject = PutBack::default();
    let sound = family("scenes", seed, times, &mut subject) & maps(seed, times, &mut subject);
    let seen = format!("{} scenes, {} spots", subject.scenes, subject.spots);
    told("scenes-put-back-are-the-untiled-list", subject.first, &seen) & sound
}
