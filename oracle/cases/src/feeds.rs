//! Feeds of columns: whole runs with refused calls between, starts of every kind, and forged states.

use crate::case::{Case, Feed, Given, Scene, Start};
use crate::families::{full_of, lively, named, scene, thresholds, under, without_nan};
use crate::limits::NANS;
use crate::maps::{self, Levels};
use crate::random::Random;
use crate::records::SPOT;
use crate::sets::{self, RECORD};

/// The bytes of a state.
pub const STATE: usize = 564;
/// The columns that the ring holds of each level.
pub const RING: usize = 5;
/// Where a state's whole numbers begin, and its octave.
pub const ROWS: usize = 548;
pub const COLS: usize = 552;
pub const POSITION: usize = 556;
pub const OCTAVE: usize = 560;

/// Sides of the long runs; the first is the only one with the most columns, which the judge goes through one by one.
const LONG: [(usize, usize); 8] = [
    (9, 4096),
    (4096, 9),
    (4096, 12),
    (9, 300),
    (1000, 15),
    (11, 600),
    (260, 20),
    (2048, 10),
];

/// The most bytes that the records of a judged column take.
pub fn worst(rows: usize) -> usize {
    2 * SPOT * rows
}

/// A column of a scene's four levels; a steady one where the scene has none there.
pub fn column_of(scene: &Scene, column: usize) -> Levels {
    let first = column * scene.rows;
    core::array::from_fn(|level| {
        let pixels = scene.levels[level].get(first..first + scene.rows);
        pixels.map_or_else(|| vec![0.25; scene.rows], <[f32]>::to_vec)
    })
}

/// What a scene's feed is started with.
pub fn start_of(scene: &Scene) -> Start {
    Start {
        record: scene.set.record().to_vec(),
        thresholds: scene.thresholds,
        rows: scene.rows,
        cols: scene.cols,
        octave: scene.octave,
    }
}

/// Random bytes.
fn bytes(random: &mut Random, count: usize) -> Vec<u8> {
    (0..count).map(|_| random.word() as u8).collect()
}

/// What a slice of the ring holds before its feed: one float, or any pattern.
fn filled(random: &mut Random, length: usize) -> Vec<f32> {
    match random.below(3) {
        0 => vec![random.any(); length],
        1 => vec![random.pick(&[0.0, f32::NAN, -0.0, 1e30]); length],
        _ => (0..length).map(|_| random.pattern()).collect(),
    }
}

/// A ring of at least the length that the rows ask for.
fn ring(random: &mut Random, rows: usize) -> Levels {
    core::array::from_fn(|_| {
        let more = random.pick(&[0, 0, 0, 1, 7, rows]);
        filled(random, RING * rows + more)
    })
}

/// A scene's feed, its state and its ring filled first, now and then longer than needed.
fn feed(random: &mut Random, scene: &Scene) -> Feed {
    let more = random.pick(&[0, 0, 1, 36]);
    Feed {
        start: Some(start_of(scene)),
        state: bytes(random, STATE + more),
        ring: ring(random, scene.rows),
    }
}

/// Rooms that a column is given with, one after another: the worst case alone, a short one first, or a byte short of each number of records and then enough
/// for it.
fn rooms(random: &mut Random, rows: usize, creeping: bool) -> Vec<usize> {
    let most = worst(rows);
    if creeping {
        let counts = 1..=2 * rows;
        let mut all = vec![0];
        all.extend(counts.flat_map(|count| [SPOT * count - 1, SPOT * count]));
        return all;
    }
    let enough = most + random.pick(&[0, 0, 1, SPOT - 1, SPOT]);
    match random.below(3) {
        0 => vec![enough],
        1 => vec![random.pick(&[0, SPOT - 1, SPOT, SPOT + 1]), enough],
        _ => {
            let few = SPOT * random.below(rows.min(20) + 1);
            vec![few.saturating_sub(1), few, enough]
        }
    }
}

/// A column of a scene as it should be given.
fn sound(random: &mut Random, which: usize, feed: &Feed, scene: &Scene, column: usize) -> Given {
    let exact = random.once_in(2);
    let lent = |slice: &Vec<f32>| match exact {
        true => RING * scene.rows,
        false => slice.len(),
    };
    Given {
        feed: which,
        columns: column_of(scene, column),
        state: random.pick(&[STATE, feed.state.len()]),
        ring: feed.ring.each_ref().map(lent),
        rooms: rooms(random, scene.rows, false),
        fill: random.word() as u8,
    }
}

/// Another length, of rows, of what the ring needs, or of a level.
pub(crate) fn other(random: &mut Random, length: usize) -> usize {
    let wrong = [length + 1, length.saturating_sub(1), 0, 2 * length + 1];
    random.pick(&wrong)
}

/// Spoils a call: lengths of columns, of the ring, of the state, by the bits of a choice.
fn spoil(random: &mut Random, given: &mut Given, rows: usize, choice: usize) {
    if choice & 1 == 1 {
        let level = random.below(4);
        given.columns[level].resize(other(random, rows), 0.5);
    }
    if choice & 2 == 2 {
        let short = [RING * rows - rows.min(1), (RING - 1) * rows, 0];
        given.ring[random.below(4)] = random.pick(&short);
    }
    if choice & 4 == 4 {
        given.state = random.pick(&[STATE - 1, STATE - 4, RECORD, 0]);
    }
    given.rooms.truncate(random.pick(&[1, 3]));
}

/// The calls of a feed that goes through a scene's columns up to a stop; those past the last column are given once more.
fn through(
    random: &mut Random,
    which: usize,
    feed: &Feed,
    scene: &Scene,
    manner: Manner,
) -> Vec<Given> {
    let Manner {
        creeping,
        faults,
        stop,
    } = manner;
    let mut all = Vec::new();
    for column in 0..stop {
        let mut one = sound(random, which, feed, scene, column);
        let past = column >= scene.cols;
        let spoilt = faults && random.once_in(5) || past && random.once_in(2);
        if spoilt {
            let mut bad = one.clone();
            let choice = random.from_to(1, 7);
            spoil(random, &mut bad, scene.rows, choice);
            all.push(bad);
        }
        if creeping {
            one.rooms = rooms(random, scene.rows, true);
        }
        all.push(one);
    }
    all
}

/// How a feed is gone through: whether rooms creep up, whether refused calls stand between, and before which column it stops.
#[derive(Clone, Copy)]
struct Manner {
    creeping: bool,
    faults: bool,
    stop: usize,
}

/// A map in which every judged pixel is a spot.
fn full(random: &mut Random) -> Scene {
    let (rows, cols) = (random.from_to(9, 24), random.from_to(9, 24));
    full_of(random, rows, cols)
}

/// The scene of a run: document 01's own first, then one in sixteen long, one in sixteen all spots, the others of any kind.
fn scene_of(random: &mut Random, number: usize) -> Scene {
    if let Some(scene) = named(number) {
        return scene;
    }
    match number % 16 {
        15 => {
            let long = number / 16 - 1;
            let (rows, cols) = LONG[if long == 0 { 0 } else { 1 + long % 7 }];
            let set = sets::real(random);
            under(random, set, rows, cols)
        }
        7 => full(random),
        step if step % 2 == 0 => lively(random),
        _ => scene(random),
    }
}

/// A run: one feed or two in turn; plain, with creeping rooms, or with refused calls between; to its end and past it, or stopped early.
pub fn run(random: &mut Random, number: usize) -> Case {
    let scenes = match number % 4 {
        3 if number % 16 != 15 => vec![scene_of(random, number), lively(random)],
        _ => vec![scene_of(random, number)],
    };
    let feeds: Vec<Feed> = scenes.iter().map(|scene| feed(random, scene)).collect();
    let mut calls: Vec<_> = (feeds.iter().zip(&scenes).enumerate())
        .map(|(which, (feed, scene))| {
            let manner = Manner {
                creeping: number % 4 == 1 && scene.rows < 100,
                faults: number % 4 != 0,
                stop: match random.below(4) {
                    0 => random.below(scene.cols + 1),
                    1 => scene.cols,
                    _ => scene.cols + random.from_to(1, 3),
                },
            };
            through(random, which, feed, scene, manner).into_iter()
        })
        .collect();
    let mut given = Vec::new();
    while !calls.is_empty() {
        let turn = random.below(calls.len());
        match calls[turn].next() {
            Some(one) => given.push(one),
            None => drop(calls.remove(turn)),
        }
    }
    Case::Fed { feeds, given }
}

/// A record that is not good: damaged, of another length, or with a spare byte.
pub(crate) fn bad_record(random: &mut Random) -> Vec<u8> {
    match random.below(3) {
        0 => sets::damaged(random).record().to_vec(),
        kind => sets::record(random, 1 + kind),
    }
}

/// A NaN in one of the five thresholds or in all.
pub(crate) fn blank(random: &mut Random, thresholds: &mut [f32; 5]) {
    let nan = f32::from_bits(random.pick(&NANS));
    match random.below(6) {
        5 => thresholds.fill(nan),
        which => thresholds[which] = nan,
    }
}

/// The faults of a start, of sides, octave, thresholds, set and room: half of the numbers go through all choices, the others have none, the last or one.
fn start_faults(random: &mut Random, number: usize) -> [bool; 5] {
    let chosen = match number % 6 {
        0 | 2 | 4 => number / 2,
        1 => 0,
        3 => 16,
        _ => 1 << random.below(5),
    };
    core::array::from_fn(|fault| chosen >> fault & 1 == 1)
}

/// A start with faults by the number; where room is one of them, which slice of the ring is short, or that the state is, goes by the number too.
pub fn start(random: &mut Random, number: usize) -> Case {
    let [size, octave, nan, bad, room] = start_faults(random, number);
    let set = sets::any(random);
    let side = |random: &mut Random| match random.below(8) {
        0 => random.pick(&[0, 4096, 4095, 1]),
        _ => random.from_to(0, 40),
    };
    let (rows, cols) = (side(random), side(random));
    let mut start = Start {
        record: set.record().to_vec(),
        thresholds: without_nan(thresholds(random, &set)),
        rows,
        cols,
        octave: random.below(6),
    };
    let mut ring = ring(random, rows);
    let mut state = random.pick(&[STATE, STATE, STATE + 1, STATE + 100]);
    if room {
        short(random, number / 6, rows, &mut ring, &mut state);
    }
    if bad {
        start.record = bad_record(random);
    }
    if nan {
        blank(random, &mut start.thresholds);
    }
    if octave {
        start.octave = random.pick(&[6, 7, 255, 256, 261, usize::MAX]);
    }
    if size {
        let long = random.pick(&[4097, 4098, 65536, usize::MAX, 1 << 63]);
        let sides = [(long, cols), (rows, long), (long, long)];
        (start.rows, start.cols) = random.pick(&sides);
    }
    let feed = Feed {
        start: Some(start),
        state: bytes(random, state),
        ring,
    };
    Case::Fed {
        feeds: vec![feed],
        given: Vec::new(),
    }
}

/// Too little room: one of the four slices, the state, or some of them.
fn short(random: &mut Random, which: usize, rows: usize, ring: &mut Levels, state: &mut usize) {
    let need = RING * rows;
    let shorter = [need.saturating_sub(1), need - rows, 0];
    match which % 6 {
        slice @ 0..4 => ring[slice].truncate(random.pick(&shorter)),
        4 => *state = random.pick(&[STATE - 1, STATE - 1, STATE - 4, RECORD, 0]),
        _ => {
            ring[random.below(4)].truncate(shorter[0]);
            ring[random.below(4)].truncate(random.pick(&shorter));
            *state = random.pick(&[STATE, STATE - 1]);
        }
    }
}

/// Writes a whole number into a state.
fn put(state: &mut [u8], at: usize, number: usize) {
    state[at..at + 4].copy_from_slice(&(number as u32).to_le_bytes());
}

/// The state that a scene's feed has at a position.
pub fn state_at(scene: &Scene, cols: usize, position: usize) -> Vec<u8> {
    let mut state = scene.set.record().to_vec();
    for threshold in scene.thresholds {
        state.extend(threshold.to_le_bytes());
    }
    state.resize(STATE, 0);
    put(&mut state, ROWS, scene.rows);
    put(&mut state, COLS, cols);
    put(&mut state, POSITION, position);
    state[OCTAVE] = scene.octave as u8;
    state
}

/// The ways in which a state is forged.
pub const WAYS: usize = 12;

/// Forges a state in one of the ways, the first of which leaves it as it is.
pub fn forge(random: &mut Random, way: usize, state: &mut Vec<u8>) {
    match way % WAYS {
        0 => {}
        1 => {
            let position = odd_position(random, state);
            put(state, POSITION, position);
        }
        2 => {
            let side = odd_side(random, state);
            put(state, random.pick(&[ROWS, COLS, COLS]), side);
        }
        3 => damage(random, state),
        4 => state[random.from_to(516, 527)] = random.pick(&[9, 10, 128, 255, 1]),
        5 => blank_state(random, state),
        6 => state[OCTAVE] = random.pick(&[6, 7, 128, 255]),
        7 => state[random.from_to(561, 563)] = random.word() as u8,
        8 => {
            let lengths = [STATE - 1, STATE - 4, RECORD, 0, STATE + 1, STATE + 36];
            state.resize(random.pick(&lengths), 0xa7);
        }
        9 => {
            for _ in 0..random.from_to(1, 8) {
                state[random.below(STATE)] = random.word() as u8;
            }
        }
        10 => {
            for place in 0..random.pick(&[4, 28, 129]) {
                let floats = [random.any(), random.pattern()];
                put_float(state, place, random.pick(&floats));
            }
        }
        _ => {
            let forged = random.pick(&[STATE, RECORD, ROWS]);
            let other = bytes(random, forged);
            state[..forged].copy_from_slice(&other);
        }
    }
}

/// A position far off, or where an answer turns.
fn odd_position(random: &mut Random, state: &[u8]) -> usize {
    let cols = whole(state, COLS);
    let near = (cols + 1).saturating_sub(random.below(5));
    let far = [
        0,
        1,
        5,
        6,
        7,
        u32::MAX as usize,
        random.word() as usize,
        near,
    ];
    random.pick(&far)
}

/// A side that is no map's, another map's, or one off.
fn odd_side(random: &mut Random, state: &[u8]) -> usize {
    let rows = whole(state, ROWS);
    let near = [rows + 1, rows.saturating_sub(1)];
    let far = [4096, 4097, 65536, u32::MAX as usize, 0, 8, near[0], near[1]];
    random.pick(&far)
}

/// A set that is not good: another one, or the state's own with one float that makes it so; not every float is one that detection reads.
fn damage(random: &mut Random, state: &mut [u8]) {
    if random.once_in(4) {
        return state[..RECORD].copy_from_slice(&sets::damaged(random).record());
    }
    let place = random.below(sets::FLOATS);
    let odd = [f32::NAN, f32::INFINITY, f32::NEG_INFINITY];
    match random.below(3) {
        0 => put_float(state, place, random.pick(&odd)),
        1 => put_float(state, random.from_to(118, 128), random.pick(&odd)),
        _ => {
            let sigma = random.below(4);
            let other = f32::from_le_bytes(word(state, 4 * random.below(4)));
            put_float(
                state,
                sigma,
                random.pick(&[other, 0.0, -1.0, other.next_down(), other * 2.0]),
            );
        }
    }
}

/// A NaN in one of a state's thresholds or in all, in the ratio half of the time.
fn blank_state(random: &mut Random, state: &mut [u8]) {
    let float = |k| f32::from_le_bytes(word(state, RECORD + 4 * k));
    let mut five = core::array::from_fn(float);
    match random.once_in(2) {
        true => five[2] = f32::from_bits(random.pick(&NANS)),
        false => blank(random, &mut five),
    }
    for (k, threshold) in five.into_iter().enumerate() {
        put_float(state, RECORD / 4 + k, threshold);
    }
}

fn put_float(state: &mut [u8], place: usize, value: f32) {
    state[4 * place..4 * place + 4].copy_from_slice(&value.to_le_bytes());
}

fn whole(state: &[u8], at: usize) -> usize {
    u32::from_le_bytes(word(state, at)) as usize
}

fn word(state: &[u8], at: usize) -> [u8; 4] {
    core::array::from_fn(|k| state[at + k])
}

/// A scene for forged states: hardly wider than what is judged.
fn narrow(random: &mut Random) -> Scene {
    let (rows, cols) = match random.below(64) {
        0 => (4096, 9),
        1 => (random.below(9), random.from_to(9, 12)),
        _ => (random.from_to(12, 24), random.from_to(9, 14)),
    };
    let set = match random.below(4) {
        0 => sets::any(random),
        1 => sets::near_t(random),
        _ => sets::real(random),
    };
    let mut scene = under(random, set, rows, cols);
    if random.once_in(2) {
        scene.thresholds = [0.0, 0.0, f32::INFINITY, 0.0, f32::INFINITY];
    }
    if random.once_in(2) {
        scene.levels = maps::lattice(random, &scene.set, rows, cols);
    }
    if random.once_in(4) {
        scene = full(random);
    }
    scene
}

/// The ring of a feed at a position: a scene's five columns before it in their slots, anything elsewhere.
fn ring_at(random: &mut Random, scene: &Scene, before: usize, shift: usize) -> Levels {
    let mut ring = ring(random, scene.rows);
    for column in before.saturating_sub(RING)..before {
        let first = (column + shift) % RING * scene.rows;
        for (slice, pixels) in ring.iter_mut().zip(column_of(scene, column)) {
            slice[first..first + scene.rows].copy_from_slice(&pixels);
        }
    }
    ring
}

/// Where a feed stands: how far to the right its scene is moved, the cols it has then, and the scene's column that comes next.
fn place(random: &mut Random, scene: &Scene) -> (usize, usize, usize) {
    let cols = scene.cols;
    let far = scene.rows < 100 && random.once_in(6);
    let shift = if far { random.below(4097 - cols) } else { 0 };
    let wider = if far {
        random.pick(&[0, 1, 4096 - cols - shift])
    } else {
        0
    };
    let next = match random.below(4) {
        0 => random.below(cols),
        _ => random.from_to(6, cols - 3),
    };
    (shift, cols + shift + wider, next)
}

/// The most pixels of a map that is judged by one of its columns.
const PIXELS: usize = 1 << 19;

/// A state forged in one way or two; a map too large to be judged keeps its cols.
fn forged_state(random: &mut Random, way: usize, sound: Vec<u8>) -> Vec<u8> {
    let mut state = sound.clone();
    forge(random, way, &mut state);
    if state.len() >= STATE && random.once_in(6) {
        let second = random.below(WAYS);
        forge(random, second, &mut state);
    }
    if state.len() >= STATE {
        let [rows, cols] = [ROWS, COLS].map(|at| whole(&state, at));
        if rows.max(cols) <= 4096 && rows * cols > PIXELS {
            state[COLS..COLS + 4].copy_from_slice(&sound[COLS..COLS + 4]);
        }
    }
    state
}

/// Up to three calls on a forged state: a feed in the midst of a scene, far to the right now and then, its state forged, its ring or its columns spoilt now
/// and then.
pub fn forged(random: &mut Random, number: usize) -> Case {
    let scene = narrow(random);
    let (shift, cols, next) = place(random, &scene);
    let sound_state = state_at(&scene, cols, next + shift);
    let feed = Feed {
        start: None,
        state: forged_state(random, number, sound_state),
        ring: ring_at(random, &scene, next, shift),
    };
    let calls = random.from_to(1, 3);
    let given = (next..next + calls).map(|column| {
        let mut one = sound(random, 0, &feed, &scene, column);
        one.state = feed.state.len();
        if random.once_in(6) {
            let choice = random.from_to(1, 3);
            spoil(random, &mut one, scene.rows, choice);
        }
        if random.once_in(6) {
            one.columns[random.below(4)].fill_with(|| random.pattern());
        }
        one
    });
    let given = given.collect();
    Case::Fed {
        feeds: vec![feed],
        given,
    }
}
