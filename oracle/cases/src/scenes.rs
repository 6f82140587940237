//! Whole scenes by tiles: long ones with spots at their seams, tiny and small ones, ones full of spots, and every refusal.

use crate::case::{Case, Scene, Start};
use crate::families::{full_of, latticed, lively, scene, under, without_nan};
use crate::feeds::{bad_record, blank, other, start_of};
use crate::maps::{self, Levels};
use crate::random::Random;
use crate::sets::{self, Set};

/// The longest side of a scene.
pub const LONGEST: usize = 16_384;
/// How far apart tiles start, and how long they are.
pub const STEP: usize = 4088;
pub const TILE: usize = 4096;
/// The bytes of a record.
pub const RECORD: usize = 64;
/// The spots of a tile up to which it is detected once.
pub const ONCE: usize = 2730;

/// Sides from 0 on, each with each.
const TINY: usize = 13;
/// How many cases go through all of them.
pub const ROUND: usize = 4 * TINY * TINY;

/// Long sides: where the number of tiles turns, and the longest.
const LONG: [usize; 14] = [
    4097, 4096, 4098, 4103, 4104, 4105, 8184, 8185, 8193, 12_272, 12_273, 16_360, 16_361, LONGEST,
];
/// Short sides, from the shortest that is judged on.
const SHORT: [usize; 4] = [9, 12, 10, 11];

/// Where spots stand in a scene.
type Places = Vec<(usize, usize)>;

/// Places along a side around the first and last pixels of each tile and of the side, at least `apart` from each other.
fn around_seams(random: &mut Random, side: usize, apart: usize) -> Vec<usize> {
    let near = |place: usize| place % STEP < 14 || place % STEP > STEP - 7 || place + 14 > side;
    let (mut all, mut next) = (Vec::new(), random.below(apart));
    for place in (0..side).filter(|&place| near(place)) {
        if place >= next {
            all.push(place);
            next = place + apart + random.below(3);
        }
    }
    all
}

/// A place along a short side, judged most often.
fn across(random: &mut Random, side: usize) -> usize {
    match random.below(8) {
        0 => random.below(side),
        _ => random.from_to(4, side - 5),
    }
}

/// Pixels at the seams: of a narrow scene along its long side, else where the seams of both sides cross.
fn at_seams(random: &mut Random, (rows, cols): (usize, usize), apart: usize) -> Places {
    let [down, right] = [rows, cols].map(|side| around_seams(random, side, apart));
    match rows.min(cols) < TILE {
        true if rows > cols => down
            .iter()
            .map(|&row| (row, across(random, cols)))
            .collect(),
        true => right
            .iter()
            .map(|&col| (across(random, rows), col))
            .collect(),
        false => {
            let crossing = |&row: &usize| right.iter().map(move |&col| (row, col));
            down.iter().flat_map(crossing).collect()
        }
    }
}

/// Displacements at which a place's rounding or its nearest pixel turns.
const MOVES: [f32; 8] = [0.5, 0.499_99, 0.499_999_97, -0.5, -0.499_99, 0.6, -0.6, 0.1];

/// Set T moving each spot of document 01's map M by x and y.
fn moving(x: f32, y: f32) -> Set {
    let mut set = Set::t();
    for block in [0, 45] {
        set.spatial[block + 27 + 4] = x / 2.0;
        set.spatial[block + 36 + 4] = y / 2.0;
    }
    set
}

/// Map M's spot at each of these pixels.
fn spots_of_m((rows, cols): (usize, usize), places: &Places) -> Levels {
    let mut levels: Levels = core::array::from_fn(|_| vec![0.0; rows * cols]);
    for &(row, col) in places {
        levels[0][col * rows + row] = 0.25;
        levels[1][col * rows + row] = -0.25;
    }
    levels
}

/// A scene under thresholds that let most of what stands out pass.
fn open(random: &mut Random, set: Set, (rows, cols): (usize, usize), levels: Levels) -> Scene {
    let [first, .., last] = set.sigmas;
    let (low, high) = random.pick(&[(first, last), (0.0, last), (-1.0, 1e9)]);
    Scene {
        set,
        thresholds: [0.0, 0.0, random.pick(&[12.1, f32::INFINITY]), low, high],
        rows,
        cols,
        octave: random.below(6),
        levels,
    }
}

/// A scene with map M's spots at these pixels, moved a little.
fn of_m(random: &mut Random, sides: (usize, usize), places: &Places) -> Scene {
    let set = moving(random.pick(&MOVES), random.pick(&MOVES));
    open(random, set, sides, spots_of_m(sides, places))
}

/// A scene with spikes or round bumps at these pixels.
pub(crate) fn spotted(random: &mut Random, sides: (usize, usize), places: &Places) -> Scene {
    let set = sets::real(random);
    let levels = match random.below(3) {
        0 => maps::bumped(random, &set, sides, places),
        _ => maps::spiked(random, &set, sides, places),
    };
    open(random, set, sides, levels)
}

/// Loses pixels of a scene at these places or near them.
fn lose(random: &mut Random, scene: &mut Scene, places: &Places) {
    let sides = (scene.rows, scene.cols);
    let spot = |random: &mut Random| random.pick(places);
    maps::lose(random, sides, &mut scene.levels, spot);
}

/// The floats that each slice must have.
fn needed(rows: usize, cols: usize) -> usize {
    rows.min(TILE) * cols.min(TILE)
}

/// Lengths of the four slices: as needed most often, else some longer, or one a float short.
fn slices(random: &mut Random, rows: usize, cols: usize) -> [usize; 4] {
    let mut all = [needed(rows, cols); 4];
    let more = [0, 1, 7, rows, rows * cols - all[0]];
    match random.below(12) {
        0 => all[random.below(4)] = all[0].saturating_sub(1),
        1..=4 => all = all.map(|length| length + random.pick(&more)),
        _ => {}
    }
    all
}

/// Rooms one after another: each number of records, a byte short first; or enough at once, after none, or after a few.
fn rooms(random: &mut Random, most: usize, creeping: bool) -> Vec<usize> {
    if creeping {
        let each = (1..=most).flat_map(|count| [RECORD * count - 1, RECORD * count]);
        return core::iter::once(0).chain(each).collect();
    }
    let enough = RECORD * most + random.pick(&[0, 0, 1, RECORD - 1, RECORD]);
    let few = RECORD * random.from_to(1, most.max(1));
    match random.below(4) {
        0 => vec![enough],
        1 => vec![0, enough],
        2 => vec![few - 1, few],
        _ => vec![few + random.below(RECORD), enough],
    }
}

/// A scene's case.
fn of(random: &mut Random, scene: Scene, rooms: Vec<usize>) -> Case {
    let slices = slices(random, scene.rows, scene.cols);
    Case::Tiled {
        given: start_of(&scene),
        levels: scene.levels,
        slices,
        rooms,
        fill: random.word() as u32,
    }
}

/// A narrow scene past a seam, its first tiles now and then without spots; one in eight, if its side is not so long, has few spots and rooms that creep up,
/// one in eight is a map of any kind.
fn long(random: &mut Random, number: usize) -> Case {
    let (long, short) = (LONG[number % 14], SHORT[number / 14 % 4]);
    let turned = (number / 14 + number / 56) % 2 == 1;
    let sides = if turned { (long, short) } else { (short, long) };
    if number % 8 == 7 {
        let set = sets::real(random);
        let scene = under(random, set, sides.0, sides.1);
        let rooms = rooms(random, short * long / 9, false);
        return of(random, scene, rooms);
    }
    let creeping = number % 8 == 3 && long < 3 * STEP;
    let mut places = at_seams(random, sides, if creeping { 9 } else { 3 });
    if random.once_in(3) {
        let blank = STEP * random.from_to(1, long / STEP);
        places.retain(|&(row, col)| row.max(col) > blank + 3);
    }
    let mut scene = match number % 3 {
        0 => of_m(random, sides, &places),
        _ => spotted(random, sides, &places),
    };
    if random.once_in(2) && !places.is_empty() {
        lose(random, &mut scene, &places);
    }
    let rooms = rooms(random, 2 * places.len(), creeping);
    of(random, scene, rooms)
}

/// Sides with two tiles each.
const CROSSED: (usize, usize) = (4100, 4101);

/// Map M's spots where the seams cross, some pixels lost there.
fn crossed(random: &mut Random) -> Case {
    let places = at_seams(random, CROSSED, 3);
    let mut scene = of_m(random, CROSSED, &places);
    lose(random, &mut scene, &places);
    let rooms = vec![RECORD * places.len()];
    of(random, scene, rooms)
}

/// The same sides full of spots.
pub fn widest(random: &mut Random) -> Case {
    let scene = latticed(random, CROSSED.0, CROSSED.1);
    of(random, scene, vec![RECORD * 1_000_000])
}

/// Sides up to 12 by the number, every judged pixel a spot.
fn tiny(random: &mut Random, number: usize) -> Case {
    let (rows, cols) = (number % TINY, number / TINY % TINY);
    let scene = full_of(random, rows, cols);
    let judged = rows.saturating_sub(8) * cols.saturating_sub(8);
    let creeping = random.once_in(2);
    let rooms = rooms(random, judged, creeping);
    of(random, scene, rooms)
}

/// Two tiles, one with about as many spots as are listed at once or as many as stand in three rows, the other with one; a byte short first, then room for the
/// first tile, then for both.
fn crowded(random: &mut Random, number: usize) -> Case {
    let counts = [ONCE, ONCE + 1, 3 * (TILE / 3 - 2), ONCE - 1, ONCE + 2];
    let (count, first) = (counts[number % 5], number % 2 * STEP);
    let crowd = (0..count).map(|spot| (4 + spot % 3 * 3, first + 4 + spot / 3 * 3));
    let alone = (4, STEP + TILE / 2 - first);
    let mut places: Places = crowd.chain([alone]).collect();
    let mut sides = (15, STEP + TILE);
    if number / 2 % 2 == 0 {
        sides = (sides.1, sides.0);
        places
            .iter_mut()
            .for_each(|place| *place = (place.1, place.0));
    }
    let scene = of_m(random, sides, &places);
    let (one, both) = (if first == 0 { count } else { 1 }, count + 1);
    let short = random.pick(&[one, both]);
    let rooms = vec![RECORD * short - 1, RECORD * one, RECORD * both];
    of(random, scene, rooms)
}

/// A scene of one tile of any kind, without a NaN among its thresholds.
fn small(random: &mut Random, number: usize) -> Case {
    let mut scene = match number % 2 {
        0 => lively(random),
        _ => scene(random),
    };
    scene.thresholds = without_nan(scene.thresholds);
    let most = random.pick(&[3, 30, scene.rows * scene.cols]);
    let rooms = rooms(random, most, false);
    of(random, scene, rooms)
}

/// A scene with faults by the number: sides, a level, the octave, a threshold, the set, a slice.
fn faulty(random: &mut Random, number: usize) -> Case {
    let [size, level, octave, nan, bad, room] = core::array::from_fn(|k| number >> k & 1 == 1);
    let mut scene = lively(random);
    scene.thresholds = without_nan(scene.thresholds);
    let (mut given, mut levels) = (start_of(&scene), scene.levels);
    let mut slices = slices(random, given.rows, given.cols);
    if room {
        let needed = needed(given.rows, given.cols);
        slices[random.below(4)] = random.pick(&[needed - 1, needed - 1, 0]);
    }
    if bad {
        given.record = bad_record(random);
    }
    if nan {
        blank(random, &mut given.thresholds);
    }
    if octave {
        given.octave = random.pick(&[6, 7, 255, 256, 261, usize::MAX]);
    }
    if size {
        oversized(random, &mut given, &mut levels);
    }
    if level {
        let which = random.below(4);
        let wrong = other(random, levels[which].len());
        levels[which].resize(wrong, 0.5);
    }
    let rooms = vec![random.pick(&[0, RECORD, 3 * RECORD + 1])];
    Case::Tiled {
        given,
        levels,
        slices,
        rooms,
        fill: random.word() as u32,
    }
}

/// A side above the longest; half of the time the levels have that length.
fn oversized(random: &mut Random, given: &mut Start, levels: &mut Levels) {
    let long = random.pick(&[LONGEST + 1, LONGEST + 1, LONGEST + 2, 65_536]);
    if random.once_in(2) {
        let other = random.below(2);
        (given.rows, given.cols) = random.pick(&[(long, other), (other, long)]);
        levels
            .iter_mut()
            .for_each(|level| level.resize(long * other, 0.0));
        return;
    }
    let long = random.pick(&[long, usize::MAX, 1 << 63]);
    let sides = [(long, given.cols), (given.rows, long), (long, long)];
    (given.rows, given.cols) = random.pick(&sides);
}

/// The case of a number: a quarter long, a quarter tiny, a quarter small, a quarter with faults; the first has two tiles along each side.
pub fn tiled(random: &mut Random, number: usize) -> Case {
    match (number, number % 4) {
        (0, _) => crossed(random),
        (_, 0) => long(random, number / 4),
        (_, 1) => tiny(random, number / 4),
        (_, 2) if number % 64 == 30 => crowded(random, number / 64),
        (_, 2) => small(random, number / 4),
        _ => faulty(random, number / 4),
    }
}

/// Apart from the families' own sources.
const SOURCE: u64 = 1 << 35;

/// A small scene and a step by which it is cut into tiles, each eight pixels longer.
pub fn small_cut(seed: u64, number: usize) -> (Scene, usize) {
    let random = &mut Random::new(seed, SOURCE, number as u64);
    let step = match number % 4 {
        0 => random.from_to(1, 4),
        _ => random.from_to(5, 20),
    };
    let longest = (20 + 3 * step).min(60);
    let side = |random: &mut Random| match random.below(16) {
        0 => random.below(9),
        _ => random.from_to(9, longest),
    };
    let (rows, cols) = (side(random), side(random));
    let set = match random.below(4) {
        0 => sets::any(random),
        _ => sets::real(random),
    };
    let mut scene = under(random, set, rows, cols);
    if number % 2 == 0 {
        let levels = maps::lattice(random, &scene.set, rows, cols);
        scene = open(random, scene.set, (rows, cols), levels);
    }
    scene.thresholds = without_nan(scene.thresholds);
    (scene, step)
}
