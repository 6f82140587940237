//! Maps given to the archive's feed column by column: what it lists, put in order, against detection's list and the judge's.

use crate::judged::Judge;
use crate::lanes::Lanes;
use crate::own::{scene_of, told, whole};
use crate::plan;
use cases::feeds::worst;
use cases::records::SPOT;
use cases::{Case, Scene};
use subject::archive::Archive;
use subject::{Reply, Subject, difference, made_of};

/// The families whose maps are fed.
pub const FAMILIES: [&str; 8] = [
    "list", "detect", "sized", "wide", "steep", "blanks", "limits", "raw",
];

/// What was seen of fed maps.
#[derive(Default)]
pub struct Seen {
    pub maps: usize,
    pub refused: usize,
    pub spots: usize,
    pub differing: usize,
    pub first: Option<String>,
}

impl Seen {
    /// Feeds a map and counts it.
    pub fn feed(
        &mut self,
        lanes: &mut Lanes,
        name: &str,
        number: (u64, u64),
        scene: &Scene,
        list: &[u8],
    ) {
        self.maps += 1;
        let fault = match lanes.feed(number.0, number.1, scene, list) {
            Ok(None) => {
                self.refused += 1;
                None
            }
            Ok(Some((listed, due))) => {
                self.spots += listed.len() / SPOT;
                (listed != due).then(|| difference(&due, &listed))
            }
            Err(fault) => Some(fault),
        };
        if let Some(fault) = fault {
            self.differing += 1;
            self.first.get_or_insert_with(|| format!("{name}: {fault}"));
        }
    }
}

impl Seen {
    pub fn tell(self, name: &str) -> bool {
        let Seen {
            maps,
            refused,
            spots,
            differing,
            first,
        } = self;
        let seen =
            format!("{maps} maps, {differing} differ, {spots} spots, {refused} starts refused");
        told(name, first, &seen)
    }
}

/// The scene of a case that detects, with levels of its own length.
pub fn fed_scene(family: &str, seed: u64, one: &plan::Numbered) -> Option<Scene> {
    let scene = match &one.case {
        Case::FromRaw { scene, pixels } => made_of(&mut Judge::sound(), scene, pixels)?.ok(),
        _ => scene_of(family, seed, one),
    }?;
    let size = scene.rows.checked_mul(scene.cols)?;
    scene
        .levels
        .iter()
        .all(|level| level.len() == size)
        .then_some(scene)
}

/// The archive's own list, in room enough.
fn detected(archive: &mut Archive, scene: &Scene) -> Vec<u8> {
    let mut out = vec![0; worst(scene.rows) * scene.cols];
    match archive.detect(scene, &mut out) {
        Some(Reply::Done(count)) => out.truncate(SPOT * count),
        _ => out.clear(),
    }
    out
}

/// Every map of the families, fed.
pub fn run(seed: u64, times: usize) -> bool {
    let (mut lanes, mut archive) = (Lanes::default(), Archive::default());
    let mut sound = true;
    for family in FAMILIES {
        let mut seen = Seen::default();
        plan::each(family, seed, times, |one| {
            let Some(scene) = fed_scene(family, seed, &one) else {
                return;
            };
            let name = format!("{family} {seed} {}", one.number);
            let (reply, mut list) = whole(Judge::sound(), &scene);
            if !matches!(reply, Some(Reply::Done(_))) {
                list.clear();
            }
            if scene.rows <= 4096 && scene.cols <= 4096 && detected(&mut archive, &scene) != list {
                let words = || format!("{name}: detection itself parts from the judge");
                seen.first.get_or_insert_with(words);
            }
            seen.feed(&mut lanes, &name, (seed, one.number as u64), &scene, &list);
        });
        sound &= seen.tell(&format!("fed-{family}"));
    }
    sound
}
