//! Detections whose thresholds are odd: NaN of every kind, with each other fault beside it; infinities; windows from high to low.

use crate::case::{Case, Scene};
use crate::families::{ROOMS, damage, damaged_input, lively};
use crate::random::Random;

/// NaN patterns: quiet and signalling, with either sign, and with every digit set.
pub(crate) const NANS: [u32; 6] = [
    0x7fc0_0000,
    0x7f80_0001,
    0xffc0_0000,
    0xff80_0001,
    0x7fff_ffff,
    0xffff_ffff,
];

/// A scene under thresholds that let most of what stands out pass.
fn open(random: &mut Random) -> Scene {
    let mut scene = lively(random);
    let [first, .., last] = scene.set.sigmas;
    scene.thresholds = [0.0, 0.0, 12.1, first, last];
    scene
}

/// A scene as one of the two entries takes it, by the number: detection, or the list program with the faults of its input.
fn entry(random: &mut Random, number: usize, mut scene: Scene, faults: [bool; 4]) -> Case {
    let [size, level, octave, bad] = faults;
    if number % 2 == 0 {
        damage(random, &mut scene, faults);
        return Case::Detect {
            scene,
            room: random.pick(&ROOMS),
            fill: random.word() as u8,
        };
    }
    damage(random, &mut scene, [false, false, octave, bad]);
    Case::List {
        input: damaged_input(random, &scene, [level, size, bad]),
    }
}

/// A NaN in each of the five thresholds alone, then in all; of every pattern; with every choice of the other four faults: by the number.
pub fn blank(random: &mut Random, number: usize) -> Case {
    let mut scene = open(random);
    let (which, pattern, chosen) = (
        number / 2 % 6,
        number / 12 % NANS.len(),
        number / 12 / NANS.len() % 16,
    );
    for (place, threshold) in scene.thresholds.iter_mut().enumerate() {
        if which == 5 || which == place {
            *threshold = f32::from_bits(NANS[pattern]);
        }
    }
    let faults = core::array::from_fn(|fault| chosen >> fault & 1 == 1);
    entry(random, number, scene, faults)
}

/// Infinities and windows from high to low, which are judged: one infinity alone first, by the number, then any five of the odd ones.
pub fn odd(random: &mut Random, number: usize) -> Case {
    let mut scene = open(random);
    let infinities = [f32::INFINITY, f32::NEG_INFINITY];
    match number / 2 {
        single @ 0..10 => scene.thresholds[single % 5] = infinities[single / 5],
        10 => scene.thresholds.swap(3, 4),
        _ => {
            for threshold in &mut scene.thresholds {
                let odd = [f32::INFINITY, f32::NEG_INFINITY, f32::MAX, f32::MIN, -0.0];
                if random.once_in(3) {
                    *threshold = random.pick(&odd);
                }
            }
            if random.once_in(3) {
                scene.thresholds.swap(3, 4);
            }
        }
    }
    entry(random, number, scene, [false; 4])
}
