//! The judge as a subject, so that one driver serves every comparison.

use cases::levels::{FILL, TAPS, WIDEST};
use cases::records::SPOT;
use cases::{Keep, Raw, Scene, Set, Start};
use judge::{
    Answer, Kernel, Logs, Map, Pass, RawMap, Rules, desks, feed, inner, levels, partner, scene,
    steps, store,
};
use std::cell::RefCell;
use subject::{Call, Correction, Fed, Lent, Reading, Reply, Subject, Tiling};

/// The judge under given rules, by its reference or its streaming pass.
#[derive(Clone, Copy)]
pub struct Judge {
    pub rules: Rules,
    pub logs: Logs,
    pub pass: Pass,
}

impl Judge {
    /// What a subject is measured by: document 01's rules and step lists, the reference pass.
    pub fn sound() -> Judge {
        Judge {
            rules: Rules::Document,
            logs: Logs::Steps,
            pass: Pass::Reference,
        }
    }

    /// The same by the streaming pass.
    pub fn streaming() -> Judge {
        Judge {
            pass: Pass::Streaming,
            ..Judge::sound()
        }
    }
}

/// The judge's form of a set.
pub fn set_of(set: &Set) -> judge::Set {
    judge::Set {
        sigmas: set.sigmas,
        scale: set.scale,
        geometry: set.geometry,
        spatial: set.spatial,
        numbers: set.numbers,
        order: set.order,
    }
}

/// The judge's form of a scene's map.
pub fn map_of(scene: &Scene) -> Map<'_> {
    Map {
        thresholds: scene.thresholds.into(),
        rows: scene.rows,
        cols: scene.cols,
        octave: scene.octave,
        levels: [0, 1, 2, 3].map(|level| scene.levels[level].as_slice()),
    }
}

/// The judge's form of a raw map.
pub fn raw_of(raw: &Raw) -> RawMap<'_> {
    RawMap {
        rows: raw.rows,
        cols: raw.cols,
        octave: raw.octave,
        pixels: &raw.pixels,
    }
}

/// The most records that the list program prints.
const PRINTED: usize = 1300;

impl Judge {
    /// A scene's list as the list program prints it.
    fn printed(&mut self, scene: &Scene) -> Vec<u8> {
        let mut out = vec![0u8; 2 * SPOT * scene.rows * scene.cols];
        match self.detect(scene, &mut out) {
            Some(Reply::Done(count)) => {
                let hex = |record: &[u8]| {
                    record
                        .iter()
                        .map(|byte| format!("{byte:02x}"))
                        .collect::<String>()
                };
                let records = out[..SPOT * count].chunks_exact(SPOT).take(PRINTED);
                let lines: String = records.map(|record| hex(record) + "\n").collect();
                format!("{lines}found {count}\n").into_bytes()
            }
            Some(Reply::Refused { number, .. }) => format!("refused {number}\n").into_bytes(),
            None => Vec::new(),
        }
    }
}

/// The scene of a list program's input, if it is whole and its set is good.
pub fn read_back(input: &[u8]) -> Option<Scene> {
    let word =
        |place: usize| -> Option<[u8; 4]> { input.get(4 * place..4 * place + 4)?.try_into().ok() };
    let whole = |place: usize| Some(u32::from_le_bytes(word(place)?) as usize);
    let (rows, cols, octave) = (whole(137)?, whole(138)?, whole(139)?);
    if rows > 60 || cols > 60 || input.len() != 560 + 16 * rows * cols {
        return None;
    }
    let set = from_judge(&judge::Set::from_record(&input[..528])?);
    let float = |place: usize| word(place).map_or(f32::NAN, f32::from_le_bytes);
    let size = rows * cols;
    let levels =
        core::array::from_fn(|level| (0..size).map(|k| float(140 + level * size + k)).collect());
    let thresholds = core::array::from_fn(|place| float(132 + place));
    Some(Scene {
        set,
        thresholds,
        rows,
        cols,
        octave,
        levels,
    })
}

/// The cases' form of a judge's set.
pub fn from_judge(set: &judge::Set) -> Set {
    Set {
        sigmas: set.sigmas,
        scale: set.scale,
        geometry: set.geometry,
        spatial: set.spatial,
        numbers: set.numbers,
        order: set.order,
    }
}

fn reply_of(answer: Answer) -> Reply {
    match answer {
        Answer::Done(count) => Reply::Done(count),
        Answer::Refused { number, index } => Reply::Refused { number, index },
    }
}

fn fed_of(answer: Answer) -> Fed {
    let (number, value) = match answer {
        Answer::Done(count) => (0, count as u64),
        Answer::Refused { number, index } => (number, index as u64),
    };
    Fed { number, value }
}

impl Subject for Judge {
    fn name(&self) -> String {
        let pass = match self.pass {
            Pass::Reference => "reference",
            Pass::Streaming => "streaming pass",
        };
        format!("the judge's {pass}, {:?} rules", self.rules)
    }

    fn list_program(&mut self, input: &[u8]) -> Option<Vec<u8>> {
        match read_back(input) {
            Some(scene) if self.pass == Pass::Streaming => Some(self.printed(&scene)),
            _ => Some(judge::list_program(input, true)),
        }
    }

    fn detect(&mut self, scene: &Scene, out: &mut [u8]) -> Option<Reply> {
        let (set, map) = (set_of(&scene.set), map_of(scene));
        let answer = judge::detect(self.rules, self.pass, &set, map, out);
        Some(reply_of(answer))
    }

    fn join(
        &mut self,
        set: &Set,
        rows: usize,
        cols: usize,
        list: &[u8],
        out: &mut [u8],
    ) -> Option<Reply> {
        Some(reply_of(judge::join(
            self.logs,
            &set_of(set),
            rows,
            cols,
            list,
            out,
        )))
    }

    fn join_old(
        &mut self,
        set: &Set,
        rows: usize,
        cols: usize,
        list: &[u8],
        out: &mut [u8],
    ) -> Option<Reply> {
        let set = set_of(set);
        let answer = judge::join_old(self.logs, &set, rows, cols, list, out);
        Some(reply_of(answer))
    }

    fn correct(
        &mut self,
        set: &Set,
        samples: [f32; 4],
        sigma: f32,
        is_max: bool,
    ) -> Option<Correction> {
        let set = set_of(set);
        let size = judge::correct(self.rules, self.logs, &set, samples, sigma, is_max);
        Some(Correction {
            size: size.map_err(|refusal| refusal.number),
            cause: size.err().map_or(0, |refusal| refusal.cause),
        })
    }

    fn octave_count(&mut self, rows: usize, cols: usize) -> Option<usize> {
        Some(judge::octave_count_rule(rows, cols))
    }

    fn downsample(
        &mut self,
        rows: usize,
        cols: usize,
        level: &[f32],
        out: &mut [f32],
    ) -> Option<Result<(usize, usize), u32>> {
        Some(judge::downsample(rows, cols, level, out))
    }

    fn read_set(&mut self, bytes: &[u8]) -> Option<Result<(), u32>> {
        Some(judge::Set::from_record(bytes).map(|_| ()).ok_or(4))
    }

    fn levels(
        &mut self,
        record: &[u8],
        raw: &Raw,
        out: &mut [Vec<f32>; 4],
    ) -> Option<Result<(), u32>> {
        Some(judge::levels(record, raw_of(raw), out))
    }

    fn feed_start(
        &mut self,
        start: &Start,
        ring: [&[f32]; 4],
        state: &mut [u8],
    ) -> Option<Result<(), u32>> {
        let given = feed::Start {
            record: &start.record,
            thresholds: start.thresholds,
            rows: start.rows,
            cols: start.cols,
            octave: start.octave,
            ring: ring.map(<[f32]>::len),
        };
        let number = feed::start(&given, state);
        Some(if number == 0 { Ok(()) } else { Err(number) })
    }

    fn feed_column(&mut self, columns: [&[f32]; 4], lent: Lent<'_>) -> Option<Fed> {
        let Lent { state, ring, out } = lent;
        let (number, value) = feed::column(feed::Call {
            state,
            columns,
            ring,
            out,
        });
        Some(Fed { number, value })
    }

    fn scene(&mut self, given: &Start, levels: [&[f32]; 4], lent: Tiling<'_>) -> Option<Fed> {
        Some(cut_scene(scene::CUT, given, levels, lent))
    }

    fn desk_call(
        &mut self,
        table: &mut [u8],
        desk: usize,
        slot: usize,
        call: Call<'_>,
    ) -> Option<u32> {
        let call = match call {
            Call::Claim => desks::Call::Claim,
            Call::Write(record) => desks::Call::Write(record),
            Call::Release => desks::Call::Release,
        };
        Some(desks::called(table, desk, slot, call))
    }

    fn desk_run(
        &mut self,
        table: &[u8],
        slot: usize,
        scene: &Scene,
        out: &mut [u8],
    ) -> Option<Fed> {
        let answer = desks::run(self.rules, self.pass, table, slot, map_of(scene), out);
        Some(fed_of(answer))
    }

    fn store_call(&mut self, bytes: &mut [u8], keep: &Keep) -> Option<Fed> {
        let answer = match keep {
            Keep::Clear => store::clear(bytes),
            Keep::Add { sides, spot } => store::add(bytes, sides.0, sides.1, spot),
            Keep::Strike { sides, slot } => store::strike(bytes, sides.0, sides.1, *slot),
            Keep::CloseUp { sides } => store::close_up(bytes, sides.0, sides.1),
        };
        Some(fed_of(answer))
    }

    fn accept(&mut self, given: &Start, levels: [&[f32]; 4], list: &[u8]) -> Option<Reading> {
        let map = given_map(given, levels);
        let due = |set: &judge::Set| self.due(given, set, map);
        let (number, finding, value) = match partner::read(&given.record, map, list, due) {
            judge::Reading::Refused { number, index } => (number, 0, index),
            judge::Reading::Yes => (0, 1, 0),
            judge::Reading::Extra(index) => (0, 2, index),
            judge::Reading::Absent(index) => (0, 3, index),
            judge::Reading::Different(index) => (0, 4, index),
        };
        Some(Reading {
            number,
            finding,
            value: value as u64,
        })
    }

    fn inner(&mut self, function: &str, set: &Set, words: &[f32]) -> Option<Vec<f32>> {
        let set = set_of(set);
        helper(function, words)
            .or_else(|| level(self.logs, function, words))
            .or_else(|| scale_fit(self.rules, function, &set, words))
            .or_else(|| profile(self.rules, function, &set, words))
    }
}

/// The map of a whole scene, or of one that a list is read beside.
fn given_map<'a>(given: &Start, levels: [&'a [f32]; 4]) -> Map<'a> {
    Map {
        thresholds: given.thresholds.into(),
        rows: given.rows,
        cols: given.cols,
        octave: given.octave,
        levels,
    }
}

/// A list that was due, and all that decides it: the rules and the pass, a scene's numbers and its set, its levels.
struct Known {
    way: (Rules, Pass),
    given: Start,
    levels: [Vec<f32>; 4],
    list: Vec<partner::Record>,
}

impl Known {
    /// Whether the list is due for these too, bit for bit.
    fn holds(&self, judge: &Judge, given: &Start, levels: [&[f32]; 4]) -> bool {
        let same = |one: &[f32], other: &[f32]| {
            let mut bits = one.iter().zip(other);
            one.len() == other.len() && bits.all(|(one, other)| one.to_bits() == other.to_bits())
        };
        let numbers = |of: &Start| (of.rows, of.cols, of.octave);
        self.way == (judge.rules, judge.pass)
            && numbers(&self.given) == numbers(given)
            && same(&self.given.thresholds, &given.thresholds)
            && self.given.record == given.record
            && (0..4).all(|level| same(&self.levels[level], levels[level]))
    }
}

thread_local! {
    /// The last list that was due: many are read beside one map.
    static LAST: RefCell<Option<Known>> = const { RefCell::new(None) };
}

impl Judge {
    /// The list due, found anew where anything that decides it is another than before.
    fn due(&self, given: &Start, set: &judge::Set, map: Map) -> Vec<partner::Record> {
        LAST.with_borrow_mut(|last| {
            let kept = last.take();
            let known = kept.filter(|known| known.holds(self, given, map.levels));
            let found = || Known {
                way: (self.rules, self.pass),
                given: given.clone(),
                levels: map.levels.map(<[f32]>::to_vec),
                list: partner::due(self.rules, self.pass, set, map),
            };
            last.insert(known.unwrap_or_else(found)).list.clone()
        })
    }
}

/// The list that is due by the sound judge, of what no refusal stands against.
pub fn due_of(given: &Start, levels: [&[f32]; 4]) -> Vec<u8> {
    let set = judge::Set::unchecked(&given.record);
    let due = Judge::sound().due(given, &set, given_map(given, levels));
    due.concat()
}

/// The judge's answer to a scene that is cut so.
pub fn cut_scene(cut: scene::Cut, given: &Start, levels: [&[f32]; 4], lent: Tiling<'_>) -> Fed {
    let map = given_map(given, levels);
    let call = scene::Call {
        record: &given.record,
        map,
        slices: lent.slices,
        out: lent.out,
    };
    let (number, value) = scene::scene(cut, call);
    Fed { number, value }
}

fn bit(value: bool) -> f32 {
    if value { 1.0 } else { 0.0 }
}

fn four(words: &[f32]) -> [f32; 4] {
    core::array::from_fn(|place| words[place])
}

/// The float helpers, by document 01's words and the machine's own root.
fn helper(function: &str, words: &[f32]) -> Option<Vec<f32>> {
    let left_unless = |other_wins: bool| if other_wins { words[1] } else { words[0] };
    let each = |helper: fn(f32) -> f32| Some(words.iter().map(|&word| helper(word)).collect());
    Some(vec![match function {
        "log2" => return each(steps::log2),
        "exp" => return each(steps::exp),
        "sqrt" => return each(f32::sqrt),
        "abs" => return each(f32::abs),
        "is_finite" => return each(|word| bit(word.is_finite())),
        "min" => left_unless(words[0].is_nan() || words[1] < words[0]),
        "max" => left_unless(words[0].is_nan() || words[1] > words[0]),
        "clamp" if words[0] < words[1] => words[1],
        "clamp" if words[0] > words[2] => words[2],
        "clamp" => words[0],
        _ => return None,
    }])
}

/// The kernels, and two levels by kernels given.
fn level(logs: Logs, function: &str, words: &[f32]) -> Option<Vec<f32>> {
    let listed = |kernel: Kernel| [&[kernel.radius as f32], &kernel.taps[..]].concat();
    Some(match function {
        "gaussian" => listed(levels::gaussian(logs, words[0])),
        "kernel" => listed(levels::kernel(logs, words[0] as usize, words[1], words[2])),
        "blur" => blur(words),
        _ => return None,
    })
}

/// Two radii each with 17 taps, rows, cols, two rooms and the raw pixels; gives whether both levels were made, and both buffers.
fn blur(words: &[f32]) -> Vec<f32> {
    let (kernels, rest) = words.split_at(2 * (1 + TAPS));
    let kernels = kernels.chunks_exact(1 + TAPS).map(|words| Kernel {
        radius: words[0] as usize,
        taps: words[1..].to_vec(),
    });
    let (numbers, pixels) = rest.split_at(4);
    let map = RawMap {
        rows: numbers[0] as usize,
        cols: numbers[1] as usize,
        octave: 0,
        pixels,
    };
    let given: Vec<(Kernel, usize)> = kernels
        .zip(numbers[2..].iter().map(|&room| room as usize))
        .collect();
    let mut made = given
        .iter()
        .all(|(kernel, room)| kernel.radius <= WIDEST && *room >= pixels.len());
    made &= map.rows <= 4096 && map.cols <= 4096 && pixels.len() == map.rows * map.cols;
    let mut answer = vec![bit(made)];
    for (kernel, room) in &given {
        let mut out = vec![FILL; *room];
        if made {
            out[..pixels.len()].copy_from_slice(&levels::blur(kernel, map));
        }
        answer.extend(out);
    }
    answer
}

fn scale_fit(rules: Rules, function: &str, set: &judge::Set, words: &[f32]) -> Option<Vec<f32>> {
    Some(match function {
        "compute_poly_coeffs" => inner::compute_poly_coeffs(rules, set, four(words)).to_vec(),
        "geometry_poly_coeffs" => inner::geometry_poly_coeffs(rules, set, four(words)).to_vec(),
        "horner" => vec![inner::horner(rules, set, four(words), words[4])],
        "neighbor_scale_band" => {
            let (low, high) = inner::neighbor_scale_band(rules, set, words[0]);
            vec![low, high]
        }
        "band_extreme" => {
            let is_max = words[6] == 1.0;
            vec![inner::band_extreme(
                rules,
                set,
                four(words),
                words[4],
                words[5],
                is_max,
            )]
        }
        "owns_scale_extremum" => {
            vec![bit(inner::owns_scale_extremum(
                rules,
                set,
                four(words),
                words[4] == 1.0,
            ))]
        }
        "scale_envelope" => {
            <[f32; 4]>::from(inner::scale_envelope(rules, set, four(words))).to_vec()
        }
        "polynomial_extrema" => {
            let extrema = inner::polynomial_extrema(rules, set, four(words), words[4], words[5]);
            <[f32; 4]>::from(extrema).to_vec()
        }
        "get_q_scale_index" => vec![inner::get_q_scale_index(rules, set, words[0]) as f32],
        "fit_spatial_quadratic" => {
            let samples = core::array::from_fn(|place| words[1 + place]);
            inner::fit_spatial_quadratic(rules, set, words[0] as usize, samples).to_vec()
        }
        "refine_keypoint_2d" => refine(rules, set, words),
        _ => return None,
    })
}

/// x, y, sigma, peak, scale index, polarity, ratio limit, 36 coefficients; gives acceptance and the spot after.
fn refine(rules: Rules, set: &judge::Set, words: &[f32]) -> Vec<f32> {
    let mut spot = inner::Spot {
        x: words[0],
        y: words[1],
        sigma: words[2],
        peak: words[3],
        scale_index: words[4] as usize,
        is_max: words[5] == 1.0,
    };
    let cubics = core::array::from_fn(|place| four(&words[7 + 4 * place..]));
    let accepted = inner::refine_keypoint_2d(rules, set, &mut spot, &cubics, words[6]);
    let index = spot.scale_index as f32;
    vec![
        bit(accepted),
        spot.x,
        spot.y,
        spot.sigma,
        spot.peak,
        index,
        bit(spot.is_max),
    ]
}

fn profile(rules: Rules, function: &str, set: &judge::Set, words: &[f32]) -> Option<Vec<f32>> {
    Some(match function {
        "profile_compatibility_statistic" => {
            match inner::profile_compatibility_statistic(rules, set, four(words)) {
                Ok(statistic) => vec![statistic],
                // No cause is 0, but a break may leave it out.
                Err(0) => Vec::new(),
                Err(cause) => vec![-f32::from(cause)],
            }
        }
        "profile_beta_from_statistic" => {
            vec![inner::profile_beta_from_statistic(
                rules,
                set,
                words.first().copied(),
            )]
        }
        "profile_blend_beta" => vec![inner::profile_blend_beta(rules, set, four(words))],
        "profile_bounded_move" => vec![inner::profile_bounded_move(rules, set, words[0], words[1])],
        "profile_model_move" => {
            let [beta, a, derivative, curvature] = four(words);
            vec![inner::profile_model_move(
                rules, set, beta, a, derivative, curvature, words[4],
            )]
        }
        _ => return None,
    })
}
