//! The text as published and the text with a run-time set give the same bytes, and so do its two passes; no fixed set's radius is above 14.

use judge::{Answer, Logs, Map, OLD_SPOT, Pass, RawMap, Rules, SPOT, Thresholds, fixed, inner};

/// Splitmix: a seeded stream of words.
struct Random(u64);

impl Random {
    fn word(&mut self) -> u64 {
        self.0 = self.0.wrapping_add(0x9e3779b97f4a7c15);
        let mut z = self.0;
        z = (z ^ (z >> 30)).wrapping_mul(0xbf58476d1ce4e5b9);
        z = (z ^ (z >> 27)).wrapping_mul(0x94d049bb133111eb);
        z ^ (z >> 31)
    }

    fn below(&mut self, limit: usize) -> usize {
        (self.word() % limit as u64) as usize
    }

    /// From -1 to 1.
    fn unit(&mut self) -> f32 {
        (self.word() >> 40) as f32 / (1 << 23) as f32 - 1.0
    }

    fn pick<T: Copy>(&mut self, list: &[T]) -> T {
        list[self.below(list.len())]
    }
}

const ODD: [f32; 9] = [
    f32::NAN,
    f32::INFINITY,
    f32::NEG_INFINITY,
    0.0,
    -0.0,
    1e-45,
    -1e-39,
    3e38,
    -1e20,
];

/// Blobs shared by the levels, weighed so that the middle levels are strong, with noise, ties or lost pixels.
fn levels(random: &mut Random, sigmas: [f32; 4], rows: usize, cols: usize) -> [Vec<f32>; 4] {
    let (coarse, noise) = (random.below(3) == 0, random.pick(&[0.0, 0.05, 0.5]));
    let shared: Vec<f32> = (0..rows * cols)
        .map(|_| random.unit().powi(3) * 40.0)
        .collect();
    let lost = random.pick(&[0, 0, 1, 4]);
    core::array::from_fn(|k| {
        let weight = [0.3, 1.0, 0.9, 0.4][k] + 0.3 * random.unit();
        let variance = sigmas[k] * sigmas[k];
        let scale = if variance > 1e-9 && variance < 1e9 {
            weight / variance
        } else {
            weight
        };
        let mut level: Vec<f32> = shared
            .iter()
            .map(|value| (value + noise * random.unit()) * scale)
            .collect();
        if coarse {
            level
                .iter_mut()
                .for_each(|value| *value = (*value * 0.5).round() * 0.25);
        }
        for _ in 0..lost.min(level.len()) {
            let at = random.below(level.len());
            level[at] = random.pick(&ODD);
        }
        level
    })
}

fn thresholds(random: &mut Random, sigmas: [f32; 4]) -> Thresholds {
    let odd = random.below(8) == 0;
    Thresholds {
        peak: if odd {
            random.pick(&[f32::INFINITY, f32::NEG_INFINITY, f32::MAX, -0.0])
        } else {
            random.pick(&[0.0, 1.0, -0.5, -1e9])
        },
        sigma: random.pick(&[0.0, 0.01, -1.0]),
        ratio: random.pick(&[4.5, 12.1, 1e6, f32::INFINITY]),
        low: random.pick(&[0.0, sigmas[0], sigmas[1] * 0.9]),
        high: random.pick(&[sigmas[3], sigmas[3] * 0.92, f32::INFINITY]),
    }
}

const PASSES: [Pass; 2] = [Pass::Reference, Pass::Streaming];

type Listed = (Answer, Vec<u8>);

fn listed(find: impl Fn(&mut [u8]) -> Answer) -> Listed {
    let mut out = vec![0; SPOT * 4000];
    let answer = find(&mut out);
    (answer, out)
}

/// A list's former records, as the text as it stands lists them.
fn cut((answer, list): &Listed) -> Listed {
    let mut former: Vec<u8> = list
        .chunks_exact(SPOT)
        .flat_map(|record| record[..OLD_SPOT].to_vec())
        .collect();
    former.resize(list.len(), 0);
    (*answer, former)
}

fn count((answer, _): &Listed) -> usize {
    match answer {
        Answer::Done(count) => *count,
        Answer::Refused { .. } => panic!("a sound map is refused"),
    }
}

#[test]
fn both_builds_and_both_passes_list_the_same_bytes() {
    for index in 0..fixed::NAMES.len() {
        let set = fixed::set(index);
        let mut random = Random(77 + index as u64);
        let (mut spots, mut maps_with_spots) = (0, 0);
        for number in 0..600 {
            let (rows, cols) = (random.below(34), random.below(34));
            let owned = levels(&mut random, set.sigmas, rows, cols);
            let map = Map {
                thresholds: thresholds(&mut random, set.sigmas),
                rows,
                cols,
                octave: random.below(6),
                levels: core::array::from_fn(|k| &owned[k][..]),
            };
            let [as_published, streamed] =
                PASSES.map(|pass| listed(|out| fixed::detect(index, pass, map, out)));
            assert!(
                as_published == streamed,
                "{} map {number}: the two published passes",
                fixed::NAMES[index]
            );
            for rules in [Rules::Published, Rules::Document] {
                let [run, run_streamed] =
                    PASSES.map(|pass| listed(|out| judge::detect(rules, pass, &set, map, out)));
                assert!(
                    run == run_streamed,
                    "{} map {number}: the two passes, {rules:?}",
                    fixed::NAMES[index]
                );
                if rules == Rules::Published {
                    assert!(
                        as_published == cut(&run),
                        "{} map {number}: the two builds",
                        fixed::NAMES[index]
                    );
                }
            }
            spots += count(&as_published);
            maps_with_spots += (count(&as_published) > 0) as usize;
        }
        println!(
            "{}: {maps_with_spots} maps of 600 with {spots} spots",
            fixed::NAMES[index]
        );
        assert!(
            spots > 200,
            "{}: too few spots for a comparison",
            fixed::NAMES[index]
        );
    }
}

#[test]
fn both_builds_correct_to_the_same_bits() {
    for index in 0..fixed::NAMES.len() {
        let set = fixed::set(index);
        let mut random = Random(991 + index as u64);
        let mut sizes = 0;
        for case in 0..40_000 {
            let size = random.pick(&[1.0f32, 30.0, 1e-3, -20.0]);
            let peaked = [0.4, 1.0, 0.9, 0.5].map(|weight| size * (weight + 0.3 * random.unit()));
            let samples = if case % 50 == 0 {
                core::array::from_fn(|_| random.pick(&ODD))
            } else {
                peaked
            };
            let sigma = random.pick(&[set.sigmas[1], 2.0, 3.0]) * (1.0 + 0.5 * random.unit());
            for (logs, is_max) in [(Logs::Steps, size > 0.0), (Logs::Rust, size < 0.0)] {
                let as_published =
                    fixed::correct(logs, index, samples, sigma, is_max).map(f32::to_bits);
                let run = judge::correct(Rules::Published, logs, &set, samples, sigma, is_max)
                    .map(f32::to_bits);
                let ours = judge::correct(Rules::Document, logs, &set, samples, sigma, is_max)
                    .map(f32::to_bits);
                let without_cause = run.map_err(|refusal| refusal.number);
                assert!(
                    as_published == without_cause && run == ours,
                    "{} case {case}",
                    fixed::NAMES[index]
                );
                sizes += run.is_ok() as usize;
            }
        }
        println!(
            "{}: {sizes} sizes in 80000 corrections",
            fixed::NAMES[index]
        );
    }
}

#[test]
fn both_builds_move_a_spot_as_far() {
    for index in 0..fixed::NAMES.len() {
        let set = fixed::set(index);
        let mut random = Random(313 + index as u64);
        let (mut accepted, mut zeros) = (0, 0);
        for case in 0..40_000 {
            let is_max = case % 2 == 0;
            let size = if is_max { -1.0 } else { 1.0 };
            let coarse = random.below(4) == 0;
            // A bowl at each sigma: the middle lowest, then shaken.
            let cubics = core::array::from_fn(|place| {
                let off = [2.0, 1.0, 2.0, 1.0, 0.0, 1.0, 2.0, 1.0, 2.0f32][place];
                let shake = random.unit();
                let shake = if coarse { shake.round() } else { 0.6 * shake };
                [0.0, 0.0, 0.0, size * (off + shake)]
            });
            let (sigma, ratio) = (random.pick(&set.sigmas), random.pick(&[10.0, 1e6]));
            let as_published = fixed::displacement(index, sigma, is_max, &cubics, ratio);
            let mut spot = inner::Spot {
                x: 0.0,
                y: 0.0,
                sigma,
                peak: 0.0,
                scale_index: 0,
                is_max,
            };
            let taken =
                inner::refine_keypoint_2d(Rules::Published, &set, &mut spot, &cubics, ratio);
            let run = taken.then_some([spot.x, spot.y]);
            let bits = |moved: Option<[f32; 2]>| moved.map(|moved| moved.map(f32::to_bits));
            assert!(
                bits(as_published) == bits(run),
                "{} case {case}",
                fixed::NAMES[index]
            );
            let moved = run.into_iter().flatten();
            accepted += usize::from(taken);
            zeros += moved.filter(|delta| delta.to_bits() == 0).count();
        }
        println!(
            "{}: {accepted} of 40000 accepted, {zeros} zeros",
            fixed::NAMES[index]
        );
        assert!(accepted > 200, "{}: too few", fixed::NAMES[index]);
    }
}

#[test]
fn both_builds_make_the_same_levels() {
    for index in 0..fixed::NAMES.len() {
        let set = fixed::set(index);
        let mut random = Random(555 + index as u64);
        for number in 0..400 {
            let (rows, cols, octave) = (random.below(40), random.below(40), random.below(6));
            let [pixels, ..] = levels(&mut random, set.sigmas, rows, cols);
            for logs in [Logs::Steps, Logs::Rust] {
                let as_published = fixed::levels(logs, index, (rows, cols, &pixels), octave);
                let map = RawMap {
                    rows,
                    cols,
                    octave,
                    pixels: &pixels,
                };
                let mut run = as_published.each_ref().map(|level| vec![7.0; level.len()]);
                judge::levels::make(logs, &set, map, [true; 4], &mut run);
                let bits = |made: &[Vec<f32>; 4]| {
                    let plain = |pixel: &f32| (!pixel.is_nan()).then_some(pixel.to_bits());
                    made.iter().flatten().map(plain).collect::<Vec<_>>()
                };
                assert!(
                    bits(&as_published) == bits(&run),
                    "{} map {number}, {logs:?}",
                    fixed::NAMES[index]
                );
            }
        }
    }
}

#[test]
fn each_candidate_is_listed_or_counted_at_one_gate() {
    let mut random = Random(4242);
    for map in 0..400 {
        let index = random.below(fixed::NAMES.len());
        let set = fixed::set(index);
        let (rows, cols) = (9 + random.below(20), 9 + random.below(20));
        let owned = levels(&mut random, set.sigmas, rows, cols);
        let given = Map {
            thresholds: thresholds(&mut random, set.sigmas),
            rows,
            cols,
            octave: 0,
            levels: core::array::from_fn(|k| &owned[k][..]),
        };
        judge::reset_counts();
        let (rules, pass) = (Rules::Document, Pass::Reference);
        let run = listed(|out| judge::detect(rules, pass, &set, given, out));
        let rejected: u64 = judge::counts().iter().map(|(_, count)| count).sum();
        let candidates = 2 * (rows - 8) * (cols - 8);
        assert_eq!(rejected as usize + count(&run), candidates, "map {map}");
    }
}
