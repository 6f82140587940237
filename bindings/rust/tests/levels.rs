//! The four levels of a raw map, through the archive.

mod common;

use common::set_t;
use uramsheg::{Map, Refusal, Thresholds};

/// What stands in a buffer before a call.
const KEPT: f32 = -7.25;

/// The radii of set T's levels in octave 0, and in the later ones.
const RADII: [[usize; 4]; 2] = [[3, 6, 9, 12], [1, 4, 8, 12]];

/// Four buffers of these lengths.
fn buffers(lengths: [usize; 4]) -> [Vec<f32>; 4] {
    lengths.map(|length| vec![KEPT; length])
}

fn lent(four: &mut [Vec<f32>; 4]) -> [&mut [f32]; 4] {
    four.each_mut().map(Vec::as_mut_slice)
}

fn bits(floats: &[f32]) -> Vec<u32> {
    floats.iter().map(|float| float.to_bits()).collect()
}

/// A map of some numbers, each unlike its neighbours.
fn some(rows: usize, cols: usize) -> Vec<f32> {
    let number = |place: usize| ((place * 2_654_435_761) % 1_000) as f32 / 8.0 - 60.0;
    (0..rows * cols).map(number).collect()
}

#[test]
fn a_flat_map_stays_flat_to_its_edges() {
    for octave in 0..6 {
        for level in uramsheg::four_levels(&set_t(), 7, 23, octave, &[3.5; 161]).unwrap() {
            assert!(level.iter().all(|pixel| (pixel - 3.5).abs() < 1e-5));
        }
    }
}

#[test]
fn one_pixel_spreads_as_the_taps_say() {
    // set T, octave 0, level 1: sigma sqrt 3.75; its first taps as the step list of exp gives them
    let taps = [0x3e53_1a4c, 0x3e38_c060].map(f32::from_bits);
    let mut raw = vec![0.0; 41 * 43];
    raw[21 * 41 + 20] = 1.0;
    let four = uramsheg::four_levels(&set_t(), 41, 43, 0, &raw).unwrap();
    let at = |row: usize, col: usize| four[1][col * 41 + row];
    assert_eq!(at(20, 21).to_bits(), (taps[0] * taps[0]).to_bits());
    assert_eq!(at(20, 22).to_bits(), (taps[1] * taps[0]).to_bits());
    assert_eq!(at(21, 21).to_bits(), (taps[0] * taps[1]).to_bits());
    assert_eq!(at(19, 20).to_bits(), (taps[1] * taps[1]).to_bits());
    for (level, radius) in four.iter().zip(RADII[0]) {
        let reached = level.iter().filter(|pixel| **pixel != 0.0).count();
        assert_eq!(reached, (2 * radius + 1) * (2 * radius + 1));
    }
}

#[test]
fn the_edges_are_repeated() {
    let (rows, cols, wide) = (5, 9, 17);
    let raw = some(rows, cols);
    let place = |at: usize, side: usize| at.saturating_sub(wide).min(side - 1);
    let (tall, long) = (rows + 2 * wide, cols + 2 * wide);
    let padded: Vec<f32> = (0..tall * long)
        .map(|at| raw[place(at / tall, cols) * rows + place(at % tall, rows)])
        .collect();
    for octave in [0, 1] {
        let four = uramsheg::four_levels(&set_t(), rows, cols, octave, &raw).unwrap();
        let larger = uramsheg::four_levels(&set_t(), tall, long, octave, &padded).unwrap();
        for (level, other) in four.iter().zip(&larger) {
            for (col, column) in level.chunks(rows).enumerate() {
                let from = (col + wide) * tall + wide;
                assert_eq!(bits(column), bits(&other[from..from + rows]));
            }
        }
    }
}

#[test]
fn a_minus_zero_stays() {
    for octave in 0..6 {
        for level in uramsheg::four_levels(&set_t(), 1, 1, octave, &[-0.0]).unwrap() {
            assert_eq!(bits(&level), [0x8000_0000]);
        }
    }
}

#[test]
fn a_lost_pixel_reaches_its_radius_and_no_further() {
    let (rows, cols) = (31, 40);
    for octave in [0, 1, 5] {
        let raw = some(rows, cols);
        let whole = uramsheg::four_levels(&set_t(), rows, cols, octave, &raw).unwrap();
        for (row, col) in [(0, 0), (13, 20), (30, 39), (15, 0), (1, 38)] {
            for value in [f32::NAN, f32::INFINITY, f32::NEG_INFINITY] {
                let mut raw = raw.clone();
                raw[col * rows + row] = value;
                let four = uramsheg::four_levels(&set_t(), rows, cols, octave, &raw).unwrap();
                for level in 0..4 {
                    let radius = RADII[octave.min(1)][level];
                    for place in 0..rows * cols {
                        let off = (place % rows)
                            .abs_diff(row)
                            .max((place / rows).abs_diff(col));
                        let pixel = four[level][place];
                        assert_eq!(pixel.is_finite(), off > radius, "level {level}, {off} off");
                        assert!(off <= radius || pixel.to_bits() == whole[level][place].to_bits());
                    }
                }
            }
        }
    }
}

#[test]
fn longer_buffers_are_kept_past_their_pixels() {
    let raw = some(9, 10);
    let four = uramsheg::four_levels(&set_t(), 9, 10, 0, &raw).unwrap();
    let mut longer = buffers([90, 91, 97, 500]);
    let made = uramsheg::levels(&set_t(), 9, 10, 0, &raw, lent(&mut longer));
    assert_eq!(made, Ok(()));
    for (level, own) in longer.iter().zip(&four) {
        assert_eq!(bits(&level[..90]), bits(own));
        assert!(level[90..].iter().all(|&float| float == KEPT));
    }
}

#[test]
fn empty_maps_have_empty_levels() {
    for (rows, cols) in [(0, 0), (0, 5), (4096, 0)] {
        let four = uramsheg::four_levels(&set_t(), rows, cols, 0, &[]).unwrap();
        assert!(four.iter().all(Vec::is_empty));
        let mut longer = buffers([0, 1, 2, 3]);
        let made = uramsheg::levels(&set_t(), rows, cols, 0, &[], lent(&mut longer));
        assert_eq!(made, Ok(()));
        assert!(longer.iter().flatten().all(|&float| float == KEPT));
    }
}

#[test]
fn sides_to_4096() {
    for (rows, cols) in [(4096, 2), (1, 4096)] {
        let raw = vec![1.0; rows * cols];
        assert!(uramsheg::four_levels(&set_t(), rows, cols, 5, &raw).is_ok());
    }
}

/// One thing that may be wrong with a call, in the order of the checks: the map's sides, how much longer than they say the raw map is, the octave, the set,
/// and how much shorter than they say each level is.
fn refused(
    sides: (usize, usize),
    more: isize,
    octave: usize,
    set: &[u8],
    short: [usize; 4],
) -> Result<(), Refusal> {
    // sides that are far too long lend little
    let length = sides.0.checked_mul(sides.1).filter(|&all| all < 1 << 20);
    let pixels = length.unwrap_or(90);
    let raw = vec![1.0; pixels.saturating_add_signed(more)];
    let mut four = buffers(short.map(|less| pixels - less));
    let answer = uramsheg::levels(set, sides.0, sides.1, octave, &raw, lent(&mut four));
    assert!(answer.is_ok() || four.iter().flatten().all(|&float| float == KEPT));
    answer
}

#[test]
fn the_first_refusal_of_any_is_given_and_nothing_is_written() {
    let good = set_t();
    let mut falling = good.clone();
    falling[..4].copy_from_slice(&9.0f32.to_le_bytes());
    let long = [good.as_slice(), &[0]].concat();
    let sets = [&good[..], &good[..527], &long, &falling, &[]];
    let rooms = [
        [0; 4],
        [1, 0, 0, 0],
        [0, 1, 0, 0],
        [0, 0, 1, 0],
        [0, 0, 0, 1],
        [9; 4],
    ];
    let large = [(4097, 9), (9, 4097), (usize::MAX, 2), (1 << 33, 1 << 31)];
    for sides in [(9, 10)].iter().chain(&large) {
        for more in [0, 1, -1, -90] {
            for octave in [0, 5, 6, usize::MAX] {
                for (number, set) in sets.iter().enumerate() {
                    for short in rooms {
                        let first = [
                            (sides.0 > 4096 || sides.1 > 4096, Refusal::Size),
                            (more != 0, Refusal::Level),
                            (octave > 5, Refusal::Octave),
                            (number > 0, Refusal::Set),
                            (short != [0; 4], Refusal::Room),
                        ];
                        let due = first.iter().find(|check| check.0).map(|check| check.1);
                        let answer = refused(*sides, more, octave, set, short);
                        assert_eq!(
                            answer.err(),
                            due,
                            "{sides:?} {more} {octave} {number} {short:?}"
                        );
                    }
                }
            }
        }
    }
}

#[test]
fn making_room_refuses_like_lending_it() {
    let set = set_t();
    let made = |rows, octave, set: &[u8]| {
        uramsheg::four_levels(set, rows, 2, octave, &[0.0; 6]).map(|four| four.map(|l| l.len()))
    };
    assert_eq!(made(3, 0, &set), Ok([6; 4]));
    assert_eq!(made(4097, 6, &[]), Err(Refusal::Size));
    assert_eq!(made(4, 6, &[]), Err(Refusal::Level));
    assert_eq!(made(3, 6, &[]), Err(Refusal::Octave));
    assert_eq!(made(3, 5, &[]), Err(Refusal::Set));
}

#[test]
fn a_lost_raw_pixel_strikes_the_spots_that_it_reaches() {
    // one round spot; in octave 0 the largest radius under this set is 14, so that it is struck 16 off, but not by the four corners
    let set = include_bytes!("../../python/src/uramsheg/standard.set");
    let (rows, cols, centre) = (41, 43, (20, 21));
    let distance = |place: usize| {
        let (row, col) = (place % rows, place / rows);
        (row as f32 - centre.0 as f32).powi(2) + (col as f32 - centre.1 as f32).powi(2)
    };
    let raw: Vec<f32> = (0..rows * cols)
        .map(|place| 100.0 * (-distance(place) / 12.0).exp())
        .collect();
    let thresholds = Thresholds {
        peak: 10.0,
        sigma: 0.0,
        ratio: 12.1,
        low: 1.9027314,
        high: 4.1498866,
    };
    let at_centre = |raw: &[f32]| {
        let four = uramsheg::four_levels(set, rows, cols, 0, raw).unwrap();
        let map = Map {
            rows,
            cols,
            octave: 0,
            levels: four.each_ref().map(Vec::as_slice),
        };
        let spots = uramsheg::spots(set, thresholds, map).unwrap();
        let key = centre.0 * cols + centre.1;
        spots.iter().any(|spot| spot.key as usize == key)
    };
    assert!(at_centre(&raw));
    for (row, col, listed) in [
        (20, 37, false),
        (20, 38, true),
        (36, 21, false),
        (37, 21, true),
        (36, 36, false),
        (35, 37, false),
        (36, 37, true),
        (4, 5, true),
        (4, 6, false),
        (5, 5, false),
    ] {
        let mut lost = raw.clone();
        lost[col * rows + row] = f32::NAN;
        assert_eq!(at_centre(&lost), listed, "with ({row}, {col}) lost");
    }
}
