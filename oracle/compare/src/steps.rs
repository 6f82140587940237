//! log2 and exp of the archive against the step lists, and the guessed root against the machine's own, bit for bit.

use crate::own::told;
use judge::steps;
use std::time::Instant;
use subject::probe::{float, probe_quick};

/// Patterns on each side of an edge.
const NEAR: u32 = 1 << 11;

/// Where an exponent begins, of either sign: zeros, subnormals, powers of two, infinities and NaN among them.
fn exponents() -> impl Iterator<Item = u32> {
    (0..512).map(|field| field << 23)
}

/// The ends of exp's range, and the multiples of ln 2, where its exponent turns.
fn turns() -> impl Iterator<Item = u32> {
    let multiples = (-152..=130).map(|n| (f64::from(n) * core::f64::consts::LN_2) as f32);
    [89.0, -104.0]
        .into_iter()
        .chain(multiples)
        .map(f32::to_bits)
}

/// Each `every`-th pattern, from `first` on, and all near an edge.
fn patterns(first: u32, every: u32) -> impl Iterator<Item = u32> {
    let walk = (0..=u32::MAX / every).map(move |step| (every * step).wrapping_add(first % every));
    let near =
        |edge: u32| (0..=2 * NEAR).map(move |place| edge.wrapping_sub(NEAR).wrapping_add(place));
    walk.chain(exponents().chain(turns()).flat_map(near))
}

/// One function over the patterns; any NaN equals any other.
fn same(name: &str, patterns: impl Iterator<Item = u32>, ours: fn(f32) -> f32, sound: fn(f32) -> f32) -> bool {
    let begun = Instant::now();
    let plain = |value: f32| {
        if value.is_nan() {
            u32::MAX
        } else {
            value.to_bits()
        }
    };
    let (mut count, mut differing, mut fault) = (0, 0, None);
    for bits in patterns {
        let value = f32::from_bits(bits);
        let (given, due) = (plain(ours(value)), plain(sound(value)));
        count += 1;
        if given != due {
            differing += 1;
            fault.get_or_insert_with(|| format!("{bits:08x}: {due:08x} due, {given:08x} given"));
        }
    }
    let seconds = begun.elapsed().as_secs_f64();
    let seen = format!("{count} patterns, {differing} differ, {seconds:.1} s");
    told(&format!("steps-{name}"), fault, &seen)
}

/// log2, exp and the guessed root over each `every`-th pattern and all near an edge; the seed says where the walk begins.
pub fn run(seed: u64, every: u32) -> bool {
    let walk = || patterns(seed as u32, every);
    same("log2", walk(), float::log2, steps::log2)
        & same("exp", walk(), float::exp, steps::exp)
        & same("quick", walk(), |value| probe_quick(value), f32::sqrt)
}
