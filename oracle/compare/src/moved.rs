//! The displacement in the judge's records, and old lists, which have none: comparisons that need no subject.

use crate::judged::{Judge, set_of};
use crate::own::{told, whole};
use crate::plan;
use cases::records::{MOVED, OLD_SIZED, OLD_SPOT, SIZED, SPOT, cut, put_moved};
use cases::{Case, Scene, Set};
use judge::{Answer, Logs};
use subject::{Reply, difference, made_of};

/// The largest displacement, f32's 0.6.
const FARTHEST: f32 = f32::from_bits(0x3f19_999a);

fn float(record: &[u8], at: usize) -> f32 {
    f32::from_le_bytes(core::array::from_fn(|k| record[at + k]))
}

/// What was seen of the displacements of listed records.
#[derive(Default)]
pub struct Seen {
    records: usize,
    zeros: usize,
    farthest: usize,
    lost: usize,
    first: Option<String>,
}

impl Seen {
    /// Looks at each record of a map's list: its pixel plus the displacement, rounded once, is its place, and the displacement is no more than 0.6 and never -0.
    pub fn look(&mut self, label: &str, scene: &Scene, list: &[u8]) {
        for record in list.chunks_exact(SPOT) {
            let key = u32::from_le_bytes(core::array::from_fn(|k| record[32 + k])) as usize;
            let pixel = [key % scene.cols, key / scene.cols].map(|place| place as f32);
            self.records += 1;
            for (at, pixel) in [0, 4].into_iter().zip(pixel) {
                let (place, delta) = (float(record, at), float(record, MOVED + at));
                self.zeros += usize::from(delta == 0.0);
                self.farthest += usize::from(delta.abs() == FARTHEST);
                self.lost += usize::from(place - pixel != delta);
                let sound = (pixel + delta).to_bits() == place.to_bits()
                    && delta.abs() <= FARTHEST
                    && delta.to_bits() != (-0.0f32).to_bits();
                if !sound {
                    let words = || format!("{label}: pixel {pixel}, delta {delta:e}, at {place}");
                    self.first.get_or_insert_with(words);
                }
            }
        }
    }

    pub fn tell(self) -> bool {
        let Seen {
            records,
            zeros,
            farthest,
            lost,
            first,
        } = self;
        let seen = format!(
            "{records} records: {zeros} zeros, {farthest} of 0.6, {lost} that a place less its pixel is not"
        );
        told("a-pixel-and-its-displacement-are-the-place", first, &seen)
    }
}

/// A list with every displacement +0.
fn stilled(list: &[u8]) -> Vec<u8> {
    let mut list = list.to_vec();
    for record in list.chunks_exact_mut(SPOT) {
        put_moved(record, [0.0; 2]);
    }
    list
}

/// Sized records without their displacement.
fn without(sized: &[u8]) -> Vec<u8> {
    let part = |one: &[u8]| [&one[..OLD_SPOT], &one[SPOT..]].concat();
    sized.chunks_exact(SIZED).flat_map(part).collect()
}

/// One of the judge's joins: its answer, and what it leaves in room for so many records.
type Joined = (Answer, Vec<u8>);

/// Where the old lists' join of a list, each record cut short, parts from the join's answer without the displacement.
fn parted(set: &Set, (rows, cols): (usize, usize), list: &[u8], room: usize) -> Result<(), String> {
    let set = set_of(set);
    let join = |list: &[u8]| -> Joined {
        let mut out = vec![0x77; SIZED * room];
        let answer = judge::join(Logs::Steps, &set, rows, cols, list, &mut out);
        (answer, out)
    };
    let (given, still) = (join(list), join(&stilled(list)));
    let mut out = vec![0x77; OLD_SIZED * room];
    let old = judge::join_old(Logs::Steps, &set, rows, cols, &cut(list), &mut out);
    if old != still.0 || out != without(&still.1) {
        let parted = difference(&without(&still.1), &out);
        return Err(format!("{old:?}, the join {:?}: {parted}", still.0));
    }
    let due = match given.0 {
        Answer::Done(_) => given.0 == still.0 && without(&given.1) == out && kept(list, &given.1),
        Answer::Refused { number: 5, index } => {
            given.0 == still.0 || far(&list[SPOT * index..][..SPOT])
        }
        _ => given.0 == still.0,
    };
    match due {
        true => Ok(()),
        false => Err(format!(
            "{:?}, without displacements {:?}",
            given.0, still.0
        )),
    }
}

/// Whether each sized record begins with its spot record.
fn kept(list: &[u8], sized: &[u8]) -> bool {
    let mut pairs = list.chunks_exact(SPOT).zip(sized.chunks_exact(SIZED));
    pairs.all(|(spot, sized)| *spot == sized[..SPOT])
}

/// Whether a record's displacement is too far or no number.
fn far(record: &[u8]) -> bool {
    let fine = |at: usize| float(record, at).abs() <= FARTHEST;
    !(fine(MOVED) && fine(MOVED + 4))
}

/// Every list of the families by both joins: those that are given, and those that detection writes.
pub fn old_lists(seed: u64, times: usize) -> bool {
    let (mut lists, mut records, mut first) = (0, 0, None);
    for family in ["join", "records", "homes", "deltas", "sized", "raw"] {
        plan::each(family, seed, times, |one| {
            let Some((set, sides, list, room)) = list_of(&one.case) else {
                return;
            };
            lists += 1;
            records += list.len() / SPOT;
            if let Err(fault) = parted(&set, sides, &list, room) {
                first.get_or_insert_with(|| format!("{family} {seed} {}: {fault}", one.number));
            }
        });
    }
    let seen = format!("{lists} lists, {records} records");
    told(
        "an-old-list-gives-the-join-without-displacements",
        first,
        &seen,
    )
}

/// A list with its set and sides, and room for so many sized records.
type List = (Set, (usize, usize), Vec<u8>, usize);

/// The list of a case, or the one that detection writes of its map.
fn list_of(case: &Case) -> Option<List> {
    let detected = |scene: &Scene| {
        let (Some(Reply::Done(count)), list) = whole(Judge::sound(), scene) else {
            return None;
        };
        Some((scene.set.clone(), (scene.rows, scene.cols), list, count))
    };
    match case {
        Case::Join {
            old: false,
            set,
            rows,
            cols,
            list,
            room,
            ..
        } => Some((set.clone(), (*rows, *cols), list.clone(), room / SIZED)),
        Case::Sized { scene } => detected(scene),
        Case::FromRaw { scene, pixels } => {
            detected(&made_of(&mut Judge::sound(), scene, pixels)?.ok()?)
        }
        _ => None,
    }
}
