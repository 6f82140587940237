//! The comparisons that need no subject: the judge's passes, builds and rules among themselves.

use crate::judged::{Judge, from_judge, map_of, raw_of, read_back, set_of};
use crate::moved;
use crate::plan;
use cases::random::Random;
use cases::records::{OLD_SPOT, SPOT, cut};
use cases::{Case, Scene, edges, sets};
use judge::{Logs, Pass, Rules, inner, levels};
use subject::{Reply, Subject, difference, made_of};

/// Prints one check's line and gives whether it passed.
pub fn told(name: &str, fault: Option<String>, seen: &str) -> bool {
    match &fault {
        None => println!("ok {name} ({seen})"),
        Some(fault) => println!("FAILED {name} ({seen})\n{fault}"),
    }
    fault.is_none()
}

/// The whole answer of one pass: its reply and every record.
pub fn whole(mut pass: Judge, scene: &Scene) -> (Option<Reply>, Vec<u8>) {
    let side = |side: usize| side.min(4096);
    let mut out = vec![0x3cu8; 2 * SPOT * side(scene.rows) * side(scene.cols)];
    let reply = pass.detect(scene, &mut out);
    if let Some(Reply::Done(count)) = reply {
        out.truncate(SPOT * count);
    }
    (reply, out)
}

/// The scene of a case that detects, if it is one.
pub fn scene_of(family: &str, seed: u64, one: &plan::Numbered) -> Option<Scene> {
    match (&one.case, one.knob) {
        (Case::Detect { scene, .. } | Case::Sized { scene }, _) => Some(scene.clone()),
        (_, Some(knob)) if family == "edge" => Some(edges::turned_scene(seed, one.number, knob)),
        (Case::List { input }, None) => read_back(input),
        _ => None,
    }
}

/// The list of a map of any sides, spared of blank columns, against detection's.
pub fn untiled(seed: u64, times: usize) -> bool {
    let (mut maps, mut spots, mut fault) = (0, 0, None);
    for family in ["list", "detect", "sized", "wide", "steep", "limits"] {
        plan::each(family, seed, times, |one| {
            let Some(scene) = scene_of(family, seed, &one) else {
                return;
            };
            let (reply, list) = whole(Judge::sound(), &scene);
            if !matches!(reply, Some(Reply::Done(_))) {
                return;
            }
            let found = judge::scene::untiled(&set_of(&scene.set), map_of(&scene), None);
            let found: Vec<u8> = found.iter().flat_map(|spot| spot.record).collect();
            maps += 1;
            spots += found.len() / SPOT;
            if found != list {
                let words = || {
                    format!(
                        "{family} {seed} {}: {}",
                        one.number,
                        difference(&list, &found)
                    )
                };
                fault.get_or_insert_with(words);
            }
        });
    }
    told(
        "a-map-of-any-sides-lists-what-detection-lists",
        fault,
        &format!("{maps} maps, {spots} spots"),
    )
}

/// The streaming pass against the reference, and the published rules against document 01's, on every map; and each listed record's displacement.
pub fn passes(seed: u64, times: usize) -> bool {
    let mut moved = moved::Seen::default();
    let (mut maps, mut other_rules) = (0, 0);
    let (mut fault, mut first_rule) = (None, None);
    let [published, published_stream] = [Judge::sound(), Judge::streaming()].map(|pass| Judge {
        rules: Rules::Published,
        ..pass
    });
    for family in ["list", "detect", "sized", "wide", "steep", "limits", "edge"] {
        plan::each(family, seed, times, |one| {
            let Some(scene) = scene_of(family, seed, &one) else {
                return;
            };
            maps += 1;
            let label = format!("{family} {seed} {}", one.number);
            let sound = whole(Judge::sound(), &scene);
            if matches!(sound.0, Some(Reply::Done(_))) {
                moved.look(&label, &scene, &sound.1);
            }
            let stream = whole(Judge::streaming(), &scene);
            if sound != stream && fault.is_none() {
                fault = Some(format!("{label}: {}", difference(&sound.1, &stream.1)));
            }
            let plain = whole(published, &scene);
            if plain != whole(published_stream, &scene) && fault.is_none() {
                fault = Some(format!(
                    "{label}: the passes part under the published rules"
                ));
            }
            if plain != sound {
                other_rules += 1;
                first_rule
                    .get_or_insert_with(|| format!("{label}: {}", difference(&sound.1, &plain.1)));
            }
        });
    }
    println!("maps where the published rules answer otherwise than document 01's: {other_rules}");
    if let Some(first) = first_rule {
        println!("the first: {first}");
    }
    let seen = format!("{maps} maps");
    told("streaming-pass-equals-reference", fault, &seen) & moved.tell()
}

/// The envelope of the streaming pass against the reference's extrema, on four samples.
pub fn envelopes(seed: u64, times: usize) -> bool {
    let random = &mut Random::new(seed, 300, 0);
    let count = 200_000 * times;
    let bits = |values: (f32, f32, f32, f32)| {
        <[f32; 4]>::from(values).map(|value| {
            if value.is_nan() {
                u32::MAX
            } else {
                value.to_bits()
            }
        })
    };
    let mut fault = None;
    let mut set = set_of(&sets::any(random));
    for number in 0..count {
        if number % 50 == 0 {
            set = set_of(&sets::any(random));
        }
        let samples = random.four();
        let coeffs = inner::compute_poly_coeffs(Rules::Document, &set, samples);
        let one = inner::scale_envelope(Rules::Document, &set, samples);
        let other =
            inner::polynomial_extrema(Rules::Document, &set, coeffs, samples[0], samples[3]);
        if bits(one) != bits(other) {
            fault.get_or_insert_with(|| format!("{samples:?}: {one:?} and {other:?}"));
        }
    }
    told("two-envelopes-agree", fault, &format!("{count} samples"))
}

/// The build of real constants, which tells no displacement, against the build with a set read at run time, each record cut to its first 40 bytes.
pub fn builds(seed: u64, times: usize) -> bool {
    let mut maps = 0;
    let mut fault = None;
    for index in 0..judge::fixed::NAMES.len() {
        let set = judge::fixed::set(index);
        for number in 0..120 * times {
            let random = &mut Random::new(seed, 301 + index as u64, number as u64);
            let scene = fixed_scene(random, &set);
            let (pass, map) = (Pass::Reference, map_of(&scene));
            let most = 2 * scene.rows * scene.cols;
            let (mut out, mut again) = (vec![0; OLD_SPOT * most], vec![0; SPOT * most]);
            let answer = judge::fixed::detect(index, pass, map, &mut out);
            let same = judge::detect(Rules::Published, pass, &set, map, &mut again);
            let again = cut(&again);
            maps += 1;
            if (answer, &out) != (same, &again) {
                fault.get_or_insert_with(|| {
                    format!("set {index}, map {number}: {}", difference(&out, &again))
                });
            }
        }
    }
    told(
        "fixed-build-equals-run-time-build",
        fault,
        &format!("{maps} maps"),
    )
}

fn fixed_scene(random: &mut Random, set: &judge::Set) -> Scene {
    let mut scene = cases::families::lively(random);
    scene.octave = 0;
    scene.set = from_judge(set);
    scene.levels = cases::maps::any(random, &scene.set, scene.rows, scene.cols);
    scene.thresholds = cases::families::thresholds(random, &scene.set);
    scene
}

/// The octave count by logarithm against the rule over whole numbers, for every shortest side to 4,096.
pub fn octaves() -> bool {
    let mut fault = None;
    for side in 0..=4096 {
        let (rule, published) = (
            judge::octave_count_rule(side, 4096),
            judge::octave_count_published(side, 4096),
        );
        if rule != published {
            fault.get_or_insert_with(|| {
                format!("side {side}: {rule} by the rule, {published} published")
            });
        }
    }
    told(
        "octave-count-by-logarithm",
        fault,
        "every shortest side to 4096",
    )
}

/// The levels of a raw map one by one, by twos and by threes, as the published blur chooses its way, against all four at once.
pub fn blurs(seed: u64, times: usize) -> bool {
    let (mut maps, mut fault) = (0, None);
    let plain = |level: &[f32]| -> Vec<u32> {
        let bits = |&pixel: &f32| if pixel.is_nan() { 0 } else { pixel.to_bits() };
        level.iter().map(bits).collect()
    };
    plan::each("levels", seed, times, |one| {
        let Case::Levels { record, raw, .. } = &one.case else {
            return;
        };
        let Some(set) = judge::Set::from_record(record) else {
            return;
        };
        let map = raw_of(raw);
        let mut all = core::array::from_fn(|_| vec![0.0; raw.pixels.len()]);
        if judge::levels(record, map, &mut all).is_err() {
            return;
        }
        maps += 1;
        for choice in 1..15 {
            let chosen = core::array::from_fn(|level| choice >> level & 1 == 1);
            let mut some = core::array::from_fn(|_| vec![0.0; raw.pixels.len()]);
            levels::make(Logs::Steps, &set, map, chosen, &mut some);
            let same = (0..4).all(|k| !chosen[k] || plain(&some[k]) == plain(&all[k]));
            if !same {
                fault.get_or_insert_with(|| format!("levels {seed} {}: {chosen:?}", one.number));
            }
        }
    });
    told(
        "chosen-levels-equal-all-four",
        fault,
        &format!("{maps} raw maps"),
    )
}

/// Detection on levels made first against the whole published text on the raw map, by both passes.
pub fn raw(seed: u64, times: usize) -> bool {
    let (mut maps, mut spots, mut fault) = (0, 0, None);
    plan::each("raw", seed, times, |one| {
        let Case::FromRaw { scene, pixels } = &one.case else {
            return;
        };
        let Some(Ok(made)) = made_of(&mut Judge::sound(), scene, pixels) else {
            return;
        };
        let (sound, list) = whole(Judge::sound(), &made);
        let Some(Reply::Done(count)) = sound else {
            return;
        };
        maps += 1;
        spots += count;
        let mut map = map_of(scene);
        map.levels[0] = pixels;
        for pass in [Pass::Reference, Pass::Streaming] {
            let mut out = vec![0; list.len()];
            let answer =
                judge::detect_raw(Rules::Document, pass, &set_of(&scene.set), map, &mut out);
            if answer != judge::Answer::Done(count) || out != list {
                let words = || format!("raw {seed} {}: {}", one.number, difference(&list, &out));
                fault.get_or_insert_with(words);
            }
        }
    });
    told(
        "raw-maps-by-the-whole-text",
        fault,
        &format!("{maps} raw maps, {spots} spots"),
    )
}

/// A raw map's list, by levels made first.
fn list_of(scene: &Scene, pixels: &[f32]) -> Vec<u8> {
    match made_of(&mut Judge::sound(), scene, pixels) {
        Some(Ok(made)) => whole(Judge::sound(), &made).1,
        _ => Vec::new(),
    }
}

/// A place on a side: as far from another as the reach, one less or more, or nearer; any where that is off the side.
fn beside(random: &mut Random, place: usize, reach: usize, side: usize) -> usize {
    let nearer = random.below(reach);
    let far = random.pick(&[reach, reach, reach - 1, reach + 1, nearer]);
    let other = random.pick(&[place + far, place.wrapping_sub(far)]);
    if other < side {
        other
    } else {
        random.below(side)
    }
}

/// One raw pixel lost near a spot strikes exactly the spots at most R + 2 rows and cols off, R the largest radius, those at the four corners aside.
pub fn lost(seed: u64, times: usize) -> bool {
    let (mut maps, mut kept, mut struck, mut corners, mut fault) = (0, 0, 0, 0, None);
    plan::each("raw", seed, times, |one| {
        let Case::FromRaw { scene, pixels } = &one.case else {
            return;
        };
        let list = list_of(scene, pixels);
        if list.is_empty() || pixels.iter().any(|pixel| !pixel.is_finite()) {
            return;
        }
        let [.., last] = levels::kernels(Logs::Steps, &set_of(&scene.set), scene.octave);
        let reach = last.radius + 2;
        let at = |spot: &[u8]| {
            let key = u32::from_le_bytes([spot[32], spot[33], spot[34], spot[35]]) as usize;
            (key / scene.cols, key % scene.cols)
        };
        let random = &mut Random::new(seed, 311, one.number as u64);
        for _ in 0..8 {
            let (row, col) = at(&list[SPOT * random.below(list.len() / SPOT)..]);
            let row = beside(random, row, reach, scene.rows);
            let col = beside(random, col, reach, scene.cols);
            let mut lossy = pixels.clone();
            lossy[col * scene.rows + row] =
                random.pick(&[f32::NAN, f32::INFINITY, f32::NEG_INFINITY]);
            let mut due = Vec::new();
            for spot in list.chunks_exact(SPOT) {
                let off = (at(spot).0.abs_diff(row), at(spot).1.abs_diff(col));
                let corner = off == (reach, reach);
                if off.0 > reach || off.1 > reach || corner {
                    due.extend_from_slice(spot);
                    kept += 1;
                    corners += usize::from(corner);
                } else {
                    struck += 1;
                }
            }
            maps += 1;
            let given = list_of(scene, &lossy);
            if given != due {
                let parted = difference(&due, &given);
                let words = || format!("raw {seed} {}, row {row}, col {col}: {parted}", one.number);
                fault.get_or_insert_with(words);
            }
        }
    });
    let seen =
        format!("{maps} raw maps, {struck} spots struck, {kept} kept, {corners} at a corner");
    told("a-lost-raw-pixel-strikes-its-square", fault, &seen)
}

/// How many taps differ between the step lists and Rust's own exp: of set T and the half octaves in octaves 0 and 1, and of random sigmas.
pub fn taps(seed: u64, times: usize) {
    let mut half_octaves = judge::Set::t();
    let root = core::f32::consts::SQRT_2;
    half_octaves.sigmas = [root, 2.0, 2.0 * root, 4.0];
    let random = &mut Random::new(seed, 310, 0);
    let sigmas: Vec<f32> = (0..1000 * times)
        .map(|_| random.between(0.1, 5.5))
        .collect();
    let of_set = |set: &judge::Set, octave| {
        [Logs::Steps, Logs::Rust].map(|logs| levels::kernels(logs, set, octave).to_vec())
    };
    let by_sigma = [Logs::Steps, Logs::Rust].map(|logs| {
        let kernel = |&sigma: &f32| levels::gaussian(logs, sigma);
        sigmas.iter().map(kernel).collect()
    });
    let all = [
        ("set T, octave 0", of_set(&judge::Set::t(), 0)),
        ("set T, octave 1", of_set(&judge::Set::t(), 1)),
        ("half octaves, octave 0", of_set(&half_octaves, 0)),
        ("half octaves, octave 1", of_set(&half_octaves, 1)),
        ("sigmas from 0.1 to 5.5", by_sigma),
    ];
    for (name, [steps, rust]) in all {
        let (mut count, mut differing, mut farthest) = (0, 0, 0);
        for (one, other) in steps.iter().zip(&rust) {
            for (tap, by_rust) in one.taps.iter().zip(&other.taps).take(one.radius + 1) {
                count += 1;
                differing += usize::from(tap != by_rust);
                farthest = farthest.max(tap.to_bits().abs_diff(by_rust.to_bits()));
            }
        }
        println!(
            "taps by the step list and by Rust's exp, {name}: {} kernels, {count} taps, {differing} differ, by at most {farthest} floats",
            steps.len()
        );
    }
}

/// How many sizes differ between the step lists and Rust's own log2 and exp.
pub fn logarithms(seed: u64, times: usize) {
    let (mut sizes, mut differing, mut alone) = (0, 0, 0);
    let mut farthest = (0.0f32, String::new());
    for family in ["correct", "size-edge"] {
        plan::each(family, seed, times, |one| {
            let Case::Correct {
                set,
                samples,
                sigma,
                is_max,
            } = &one.case
            else {
                return;
            };
            let by = |logs| {
                judge::correct(
                    Rules::Document,
                    logs,
                    &set_of(set),
                    *samples,
                    *sigma,
                    *is_max,
                )
            };
            match (by(Logs::Steps), by(Logs::Rust)) {
                (Ok(steps), Ok(rust)) => {
                    sizes += 1;
                    differing += usize::from(steps != rust);
                    let far = ((steps - rust) / rust).abs();
                    if far > farthest.0 {
                        farthest = (
                            far,
                            format!("{family} {seed} {} ({steps}, {rust})", one.number),
                        );
                    }
                }
                (steps, rust) => alone += usize::from(steps.is_ok() != rust.is_ok()),
            }
        });
    }
    println!(
        "sizes by the step lists and by Rust's log2 and exp: {sizes}, {differing} differ; given by one alone: {alone}"
    );
    println!(
        "the farthest, by {:e} of itself: {}",
        farthest.0, farthest.1
    );
}
