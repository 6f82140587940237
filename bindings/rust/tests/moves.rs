//! Displacements and old lists, request No. 8, through the archive.

mod common;

use common::set_t;
use std::collections::BTreeMap;
use uramsheg::{
    Feed, Map, Missing, OLD_SIZED_BYTES, OLD_SPOT_BYTES, OldSpot, Refusal, SIZED_BYTES, SPOT_BYTES,
    SizedSpot, Spot, Thresholds,
};

const THRESHOLDS: Thresholds = Thresholds {
    peak: 1.0,
    sigma: 1.0,
    ratio: 10.0,
    low: 1.9027314,
    high: 4.1498866,
};

const ROWS: usize = 9;
const COLS: usize = 10;

/// Map M's record, whose first 40 bytes were all of it before, and the 52 bytes that the join made of those.
const RECORD_OF_M: &str = "00009040000080400000004000008040000080bf0000804000000000000000002c000000000101000000003f00000000";
const OLD_SIZED_OF_M: &str = "00009040000080400000004000008040000080bf0000804000000000000000002c00000000010100f30435400400050001000000";

/// What stands in the output before a call.
const BYTE: u8 = 0xa5;

fn bytes_of(hex: &str) -> Vec<u8> {
    let pair = |place| u8::from_str_radix(&hex[place..place + 2], 16).unwrap();
    (0..hex.len()).step_by(2).map(pair).collect()
}

fn record_of_m() -> [u8; SPOT_BYTES] {
    bytes_of(RECORD_OF_M).try_into().unwrap()
}

fn old_record_of_m() -> [u8; OLD_SPOT_BYTES] {
    record_of_m()[..OLD_SPOT_BYTES].try_into().unwrap()
}

/// Map M's record with deltas of these bits.
fn moved(dx: u32, dy: u32) -> [u8; SPOT_BYTES] {
    let mut record = record_of_m();
    record[40..44].copy_from_slice(&dx.to_le_bytes());
    record[44..].copy_from_slice(&dy.to_le_bytes());
    record
}

/// Map M's blob at a pixel of a map of these sides.
fn levels(rows: usize, cols: usize, (row, col): (usize, usize)) -> [Vec<f32>; 4] {
    let mut levels = [0; 4].map(|_| vec![0.0; rows * cols]);
    levels[0][col * rows + row] = 0.25;
    levels[1][col * rows + row] = -0.25;
    levels
}

fn map(rows: usize, cols: usize, levels: &[Vec<f32>; 4]) -> Map<'_> {
    Map {
        rows,
        cols,
        octave: 0,
        levels: levels.each_ref().map(Vec::as_slice),
    }
}

/// The bits of how far a spot moved.
fn bits(spot: Spot) -> [u32; 2] {
    [spot.dx, spot.dy].map(f32::to_bits)
}

type Join = fn(&[u8], usize, usize, &[u8], &mut [u8]) -> Result<usize, Refusal>;

/// What a join answers, and what it leaves of so many bytes; a refusal leaves them all.
fn call(
    join: Join,
    set: &[u8],
    rows: usize,
    list: &[u8],
    room: usize,
) -> (Result<usize, Refusal>, Vec<u8>) {
    let mut out = vec![BYTE; room];
    let answer = join(set, rows, COLS, list, &mut out);
    assert!(
        answer.is_ok() || out.iter().all(|&byte| byte == BYTE),
        "{answer:?}"
    );
    (answer, out)
}

/// What the join answers to a list, with room enough.
fn joined(list: &[u8]) -> Result<usize, Refusal> {
    call(uramsheg::join, &set_t(), ROWS, list, 2 * list.len()).0
}

#[test]
fn map_m_moved_by_half_a_col_and_no_row() {
    let levels = levels(ROWS, COLS, (4, 4));
    let half = [0.5, 0.0].map(f32::to_bits);
    let spots = uramsheg::spots(&set_t(), THRESHOLDS, map(ROWS, COLS, &levels)).unwrap();
    assert_eq!(spots.iter().copied().map(bits).collect::<Vec<_>>(), [half]);
    let sized = uramsheg::sized_spots(&set_t(), THRESHOLDS, map(ROWS, COLS, &levels)).unwrap();
    assert_eq!(bits(sized[0].spot), half);
    let mut feed = Feed::start(&set_t(), THRESHOLDS, ROWS, COLS, 0).unwrap();
    let columns = (0..COLS).map(|col| levels.each_ref().map(|level| &level[col * ROWS..][..ROWS]));
    let fed: Vec<Spot> = feed.spots(columns).map(Result::unwrap).collect();
    assert_eq!(fed, spots);
    assert_eq!(bits(fed[0]), half);
}

#[test]
fn a_move_of_zero_is_plus_zero_at_a_minimum_too() {
    let mut levels = levels(ROWS, COLS, (4, 4));
    levels
        .iter_mut()
        .flatten()
        .for_each(|pixel| *pixel = -*pixel);
    let spots = uramsheg::spots(&set_t(), THRESHOLDS, map(ROWS, COLS, &levels)).unwrap();
    let moves: Vec<_> = spots
        .iter()
        .map(|&spot| (spot.is_max, bits(spot)))
        .collect();
    assert_eq!(moves, [(false, [0.5, 0.0].map(f32::to_bits))]);
}

/// Noise, another in each level.
fn noise(pixels: usize) -> [Vec<f32>; 4] {
    let mut state = 1u32;
    let mut next = || {
        state = state.wrapping_mul(1_664_525).wrapping_add(1_013_904_223);
        (state >> 8) as f32 / 8_388_608.0 - 1.0
    };
    [0; 4].map(|_| (0..pixels).map(|_| next()).collect())
}

const OPEN: Thresholds = Thresholds {
    peak: 0.0,
    sigma: 0.0,
    ratio: 12.1,
    low: -1.0,
    high: 9.0,
};

const STANDARD: &[u8] = include_bytes!("../../python/src/uramsheg/standard.set");

#[test]
fn a_place_is_its_pixel_plus_the_move_rounded_once() {
    let (rows, cols) = (21, 4_096);
    let levels = noise(rows * cols);
    let spots = uramsheg::spots(STANDARD, OPEN, map(rows, cols, &levels)).unwrap();
    assert!(spots.len() > 100, "{} spots", spots.len());
    for spot in spots {
        let (row, col) = (spot.key as usize / cols, spot.key as usize % cols);
        assert_eq!(
            (spot.x, spot.y),
            (col as f32 + spot.dx, row as f32 + spot.dy),
            "{spot:?}"
        );
        assert!(spot.dx.abs() <= 0.6 && spot.dy.abs() <= 0.6, "{spot:?}");
        // never -0.0
        assert!(bits(spot).iter().all(|&delta| delta != 1 << 31), "{spot:?}");
    }
}

/// The spots of noise on a map of 21 rows, by polarity, row and col; its first col has this number.
fn by_pixel(levels: [&[f32]; 4], first: usize) -> BTreeMap<(bool, usize, usize), Spot> {
    let cols = levels[0].len() / 21;
    let map = Map {
        rows: 21,
        cols,
        octave: 0,
        levels,
    };
    let spots = uramsheg::spots(STANDARD, OPEN, map).unwrap();
    let place = |spot: Spot| {
        let key = spot.key as usize;
        ((spot.is_max, key / cols, first + key % cols), spot)
    };
    spots.into_iter().map(place).collect()
}

#[test]
fn a_move_is_the_same_wherever_the_spot_is() {
    let (first, end) = (3_000, 3_400);
    let levels = noise(21 * 4_096);
    let far = by_pixel(levels.each_ref().map(Vec::as_slice), 0);
    let near = by_pixel(
        levels.each_ref().map(|level| &level[21 * first..21 * end]),
        first,
    );
    // the four cols at either side are not judged
    let judged = far
        .iter()
        .filter(|((_, _, col), _)| (first + 4..end - 4).contains(col));
    assert!(judged.clone().map(|(place, _)| place).eq(near.keys()));
    let mut spoiled = 0;
    for (place, spot) in judged {
        assert_eq!(bits(*spot), bits(near[place]), "{place:?}");
        spoiled += usize::from(spot.x - place.2 as f32 != spot.dx);
    }
    // x less the col is not the move
    assert!(
        near.len() > 20 && spoiled > near.len() / 2,
        "{spoiled} of {}",
        near.len()
    );
}

#[test]
fn moves_to_0_6_are_read() {
    let most = 0.6f32.to_bits();
    assert_eq!(most, 0x3f19_999a);
    let sign = 1 << 31;
    for delta in [0, sign, 1, sign | 1, most - 1, most, sign | most] {
        for record in [moved(delta, 0), moved(0, delta), moved(delta, delta)] {
            let mut out = [BYTE; SIZED_BYTES];
            let answer = uramsheg::join(&set_t(), ROWS, COLS, &record, &mut out);
            assert_eq!(answer, Ok(1), "{delta:08x}");
            // the join keeps the record's bytes, -0.0's too
            assert_eq!(out[..SPOT_BYTES], record, "{delta:08x}");
            assert_eq!(
                bits(SizedSpot::from_record(&out).spot),
                bits(Spot::from_record(&record))
            );
        }
    }
}

#[test]
fn a_longer_move_is_a_bad_record_and_so_is_one_that_is_not_finite() {
    let most = 0.6f32.to_bits();
    let [large, one, infinite] = [f32::MAX, 1.0, f32::INFINITY].map(f32::to_bits);
    for size in [
        most + 1,
        one,
        large,
        infinite,
        infinite + 1,
        0x7fc0_0000,
        u32::MAX >> 1,
    ] {
        for delta in [size, 1 << 31 | size] {
            for bad in [moved(delta, 0), moved(0, delta)] {
                let good = record_of_m();
                assert_eq!(
                    joined(&bad),
                    Err(Refusal::Records { index: 0 }),
                    "{delta:08x}"
                );
                let list = [good, good, bad, good, bad].concat();
                assert_eq!(
                    joined(&list),
                    Err(Refusal::Records { index: 2 }),
                    "{delta:08x}"
                );
            }
        }
    }
}

#[test]
fn the_first_bad_record_counts_whatever_is_wrong_with_it() {
    let (good, far) = (record_of_m(), moved(0.7f32.to_bits(), 0));
    let mut damaged = good;
    damaged[38] = 2;
    let first = Err(Refusal::Records { index: 1 });
    assert_eq!(joined(&[good, far, damaged].concat()), first);
    assert_eq!(joined(&[good, damaged, far].concat()), first);
    // the room is looked at last
    assert_eq!(
        call(uramsheg::join, &set_t(), ROWS, &[good, far].concat(), 0).0,
        first
    );
}

#[test]
fn that_a_place_is_the_pixel_plus_the_move_is_not_checked() {
    assert_eq!(
        joined(&moved((-0.25f32).to_bits(), 0.6f32.to_bits())),
        Ok(1)
    );
}

#[test]
fn an_old_list_is_sized_as_it_was_before() {
    let old = old_record_of_m();
    let former = bytes_of(OLD_SIZED_OF_M);
    for more in [0, 1, 8, OLD_SIZED_BYTES] {
        let (answer, out) = call(
            uramsheg::join_old,
            &set_t(),
            ROWS,
            &old,
            OLD_SIZED_BYTES + more,
        );
        assert_eq!(answer, Ok(1));
        assert_eq!(out, [&former[..], &vec![BYTE; more]].concat());
    }
    let (answer, out) = call(
        uramsheg::join_old,
        &set_t(),
        ROWS,
        &old.repeat(3),
        3 * OLD_SIZED_BYTES,
    );
    assert_eq!((answer, out), (Ok(3), former.repeat(3)));
    assert_eq!(call(uramsheg::join_old, &set_t(), ROWS, &[], 0).0, Ok(0));
}

#[test]
fn an_old_list_is_sized_as_a_new_one_is() {
    let (mut turned, mut coarse) = (record_of_m(), record_of_m());
    turned[38] = 0;
    coarse[8..12].copy_from_slice(&64.0f32.to_le_bytes());
    let list = [record_of_m(), turned, coarse];
    let old: Vec<u8> = list
        .iter()
        .flat_map(|record| &record[..OLD_SPOT_BYTES])
        .copied()
        .collect();
    let (_, now) = call(
        uramsheg::join,
        &set_t(),
        ROWS,
        &list.concat(),
        3 * SIZED_BYTES,
    );
    let (_, before) = call(
        uramsheg::join_old,
        &set_t(),
        ROWS,
        &old,
        3 * OLD_SIZED_BYTES,
    );
    let records = now
        .as_chunks::<SIZED_BYTES>()
        .0
        .iter()
        .zip(before.as_chunks::<OLD_SIZED_BYTES>().0);
    let mut causes = Vec::new();
    for (now, before) in records {
        assert_eq!(now[..OLD_SPOT_BYTES], before[..OLD_SPOT_BYTES]);
        assert_eq!(now[SPOT_BYTES..], before[OLD_SPOT_BYTES..]);
        let (now, before) = (SizedSpot::from_record(now), SizedSpot::from_record(before));
        assert_eq!(
            (now.size, now.missing, now.row, now.col),
            (before.size, before.missing, before.row, before.col)
        );
        causes.push(before.missing);
    }
    assert_eq!(
        causes,
        [None, Some(Missing::Polarity), Some(Missing::Range)]
    );
}

#[test]
fn an_old_record_reads_as_a_spot_without_a_move() {
    let spot = OldSpot {
        x: 4.5,
        y: 4.0,
        sigma: 2.0,
        peak: 4.0,
        samples: [-1.0, 4.0, 0.0, 0.0],
        key: 44,
        octave: 0,
        scale_index: 1,
        is_max: true,
    };
    assert_eq!(OldSpot::from_record(&old_record_of_m()), spot);
    let (_, out) = call(
        uramsheg::join_old,
        &set_t(),
        ROWS,
        &old_record_of_m(),
        OLD_SIZED_BYTES,
    );
    let sized: Vec<SizedSpot<OldSpot>> = out
        .as_chunks()
        .0
        .iter()
        .map(SizedSpot::from_record)
        .collect();
    let due = SizedSpot {
        spot,
        size: Some(8.0f32.sqrt()),
        missing: None,
        row: 4,
        col: 5,
    };
    assert_eq!(sized, [due]);
}

#[test]
fn a_list_of_the_other_kind_is_refused_by_its_length() {
    let (old, new) = (old_record_of_m(), record_of_m());
    assert_eq!(joined(&old), Err(Refusal::Records { index: 0 }));
    let join_old = |list: &[u8]| call(uramsheg::join_old, &set_t(), ROWS, list, 2 * list.len()).0;
    assert_eq!(join_old(&new), Err(Refusal::Records { index: 1 }));
    // as many bytes are six old records and five new ones; here a record is bad
    assert_eq!(joined(&old.repeat(6)), Err(Refusal::Records { index: 0 }));
    assert_eq!(join_old(&new.repeat(5)), Err(Refusal::Records { index: 1 }));
}

#[test]
fn the_join_of_old_lists_refuses_in_order() {
    let record = old_record_of_m();
    let two = record.repeat(2);
    let mut damaged = two.clone();
    damaged[OLD_SPOT_BYTES + 38] = 2;
    let good = set_t();
    let refused =
        |set: &[u8], rows, list: &[u8], room| call(uramsheg::join_old, set, rows, list, room).0;
    let second = Err(Refusal::Records { index: 1 });
    assert_eq!(refused(&[], 4097, &damaged[1..], 0), Err(Refusal::Size));
    assert_eq!(refused(&[], ROWS, &damaged[1..], 0), Err(Refusal::Set));
    assert_eq!(refused(&good, ROWS, &damaged[..79], 0), second);
    assert_eq!(
        refused(&good, ROWS, &[&damaged[..], &[0]].concat(), 0),
        Err(Refusal::Records { index: 2 })
    );
    assert_eq!(refused(&good, ROWS, &damaged, 0), second);
    assert_eq!(
        refused(&good, ROWS, &two, 2 * OLD_SIZED_BYTES - 1),
        Err(Refusal::Room)
    );
    assert_eq!(refused(&good, ROWS, &two, 2 * OLD_SIZED_BYTES), Ok(2));
}

#[test]
fn each_field_of_an_old_record_is_checked() {
    let nan = f32::NAN.to_le_bytes();
    for (place, bytes) in [
        (0, 9.5f32.to_le_bytes()),
        (0, (-0.5f32).to_le_bytes()),
        (4, 8.5f32.to_le_bytes()),
        (8, nan),
        (12, nan),
        (28, nan),
        (32, 90u32.to_le_bytes()),
        (36, [6, 1, 1, 0]),
        (36, [0, 0, 1, 0]),
        (36, [0, 3, 1, 0]),
        (36, [0, 1, 2, 0]),
        (36, [0, 1, 1, 1]),
    ] {
        let mut bad = old_record_of_m();
        bad[place..place + 4].copy_from_slice(&bytes);
        let list = [old_record_of_m(), bad].concat();
        let (answer, _) = call(
            uramsheg::join_old,
            &set_t(),
            ROWS,
            &list,
            2 * OLD_SIZED_BYTES,
        );
        assert_eq!(
            answer,
            Err(Refusal::Records { index: 1 }),
            "byte {place}: {bytes:?}"
        );
    }
    for octave in 0..=5 {
        let mut record = old_record_of_m();
        record[36] = octave;
        let (answer, out) = call(uramsheg::join_old, &set_t(), ROWS, &record, OLD_SIZED_BYTES);
        assert_eq!((answer, out[36]), (Ok(1), octave));
    }
}

#[test]
fn a_refused_list_is_told_of_both_kinds() {
    let words = Refusal::Records { index: 3 }.to_string();
    for word in ["48 bytes", "40", "join_old", "record 3"] {
        assert!(words.contains(word), "{words}");
    }
}
