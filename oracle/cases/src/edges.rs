//! Cases at an edge: a scene, a correction or a statistic with one float put to a chosen value.

use crate::case::{Case, Scene};
use crate::causes;
use crate::families::{correct, lively};
use crate::random::Random;
use crate::sets::FLOATS;

/// One float of a case and the value it is put to.
#[derive(Clone, Copy, Debug, PartialEq)]
pub struct Knob {
    /// Which float: 0 to 4 a threshold (or sample 0 to 3 and sigma), then the 129 of the set, then the pixels.
    pub place: u32,
    pub value: f32,
}

/// The first place after the thresholds: the set's floats.
pub const SET: usize = 5;
/// The first place of the pixels, level by level.
pub const PIXELS: usize = SET + FLOATS;

/// The families of edge cases.
pub const EDGES: [&str; 4] = ["edge", "size-edge", "cause-edge", "statistic-edge"];

/// The scene of an edge case, before its knob is turned: a small map, often with one spot at its middle.
pub fn scene(seed: u64, number: usize) -> Scene {
    let random = &mut Random::new(seed, 100, number as u64);
    loop {
        let mut scene = lively(random);
        scene.octave = 0;
        scene.thresholds[2] = random.pick(&[10.0, 20.0, f32::INFINITY]);
        if scene.rows * scene.cols <= 300 && scene.levels.iter().flatten().all(|v| v.is_finite()) {
            return scene;
        }
    }
}

/// The correction of an edge case, before its knob is turned.
pub fn correction(seed: u64, number: usize) -> Case {
    let random = &mut Random::new(seed, 101, number as u64);
    loop {
        let case = correct(random, 0);
        if let Case::Correct { samples, sigma, .. } = &case
            && samples.iter().all(|value| value.is_finite())
            && sigma.is_finite()
        {
            return case;
        }
    }
}

/// The correction or the statistic of an edge between two causes, or a cause and none, before its knob is turned.
pub fn caused(family: &str, seed: u64, number: usize) -> Case {
    if family == "statistic-edge" {
        return causes::statistic(&mut Random::new(seed, 103, number as u64));
    }
    causes::correction(&mut Random::new(seed, 102, number as u64), number)
}

/// The float at a place of a scene.
pub fn scene_float(scene: &mut Scene, place: usize) -> &mut f32 {
    let size = scene.rows * scene.cols;
    match place {
        0..SET => &mut scene.thresholds[place],
        SET..PIXELS => scene.set.float(place - SET),
        _ => &mut scene.levels[(place - PIXELS) / size][(place - PIXELS) % size],
    }
}

/// A scene with a knob turned.
pub fn turned_scene(seed: u64, number: usize, knob: Knob) -> Scene {
    let mut scene = scene(seed, number);
    *scene_float(&mut scene, knob.place as usize) = knob.value;
    scene
}

/// The float at a place of a correction or a statistic.
pub fn float(case: &mut Case, place: usize) -> &mut f32 {
    match (case, place) {
        (Case::Correct { samples, .. }, 0..=3) => &mut samples[place],
        (Case::Correct { sigma, .. }, 4) => sigma,
        (Case::Inner { words, .. }, 0..=3) => &mut words[place],
        (Case::Correct { set, .. } | Case::Inner { set, .. }, SET..) => set.float(place - SET),
        (case, _) => panic!("{case:?} has no place {place}"),
    }
}

/// The case of an edge family with its knob turned.
pub fn turn(family: &str, seed: u64, number: usize, knob: Knob) -> Case {
    let mut case = match family {
        "edge" => {
            return Case::List {
                input: turned_scene(seed, number, knob).input(),
            };
        }
        "size-edge" => correction(seed, number),
        _ => caused(family, seed, number),
    };
    *float(&mut case, knob.place as usize) = knob.value;
    case
}
