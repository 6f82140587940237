//! Document 01's worked cases and its "others", through the archive.

mod common;

use common::set_t;
use uramsheg::{Map, Missing, Refusal, SIZED_BYTES, SPOT_BYTES, SizedSpot, Spot, Thresholds};

const THRESHOLDS: Thresholds = Thresholds {
    peak: 1.0,
    sigma: 1.0,
    ratio: 10.0,
    low: 1.9027314,
    high: 4.1498866,
};

/// Four levels of zeros with map M's blob at the pixel (row, col).
fn levels(rows: usize, cols: usize, (row, col): (usize, usize)) -> [Vec<f32>; 4] {
    let mut levels = [0; 4].map(|_| vec![0.0; rows * cols]);
    if row < rows && col < cols {
        levels[0][col * rows + row] = 0.25;
        levels[1][col * rows + row] = -0.25;
    }
    levels
}

fn map(rows: usize, cols: usize, levels: &[Vec<f32>; 4]) -> Map<'_> {
    Map {
        rows,
        cols,
        octave: 0,
        levels: [0, 1, 2, 3].map(|level| levels[level].as_slice()),
    }
}

fn hex(bytes: &[u8]) -> String {
    bytes.iter().map(|byte| format!("{byte:02x}")).collect()
}

/// How many spots a map of these sides has, with map M's blob in it.
fn found(rows: usize, cols: usize, place: (usize, usize)) -> Result<usize, Refusal> {
    let levels = levels(rows, cols, place);
    uramsheg::detect(&set_t(), THRESHOLDS, map(rows, cols, &levels), &mut [])
}

const RECORD_OF_M: &str = "00009040000080400000004000008040000080bf0000804000000000000000002c000000000101000000003f00000000";

#[test]
fn map_m_lists_its_record() {
    let levels = levels(9, 10, (4, 4));
    let mut out = [0; SPOT_BYTES];
    let answer = uramsheg::detect(&set_t(), THRESHOLDS, map(9, 10, &levels), &mut out);
    assert_eq!(answer, Ok(1));
    assert_eq!(hex(&out), RECORD_OF_M);
}

#[test]
fn a_lost_pixel_strikes_the_spots_around_it_alone() {
    // the pixels around (4, 4), where the spot was found, and not those around its home, (4, 5)
    for (lost, spots) in [
        ((2, 4), 0),
        ((2, 2), 1),
        ((4, 2), 0),
        ((4, 6), 0),
        ((4, 7), 1),
    ] {
        let mut levels = levels(9, 10, (4, 4));
        levels[0][lost.1 * 9 + lost.0] = f32::NAN;
        let listed = uramsheg::spots(&set_t(), THRESHOLDS, map(9, 10, &levels)).unwrap();
        assert_eq!(listed.len(), spots, "with {lost:?} lost");
    }
}

#[test]
fn short_buffers_hold_whole_records_alone() {
    let levels = levels(9, 10, (4, 4));
    for (room, written) in [(0, 0), (40, 0), (47, 0), (48, 48), (49, 48)] {
        let mut out = vec![0xa5; room];
        let answer = uramsheg::detect(&set_t(), THRESHOLDS, map(9, 10, &levels), &mut out);
        assert_eq!(answer, Ok(1), "with room {room}");
        assert_eq!(hex(&out[..written]), RECORD_OF_M[..2 * written]);
        assert!(out[written..].iter().all(|&byte| byte == 0xa5));
    }
}

#[test]
fn a_side_of_8_has_no_judged_pixel_and_one_of_9_has() {
    assert_eq!(found(8, 10, (4, 4)), Ok(0));
    assert_eq!(found(9, 8, (4, 4)), Ok(0));
    assert_eq!(found(9, 9, (4, 4)), Ok(1));
    assert_eq!(found(0, 0, (4, 4)), Ok(0));
}

#[test]
fn sides_to_4096() {
    assert_eq!(found(4096, 9, (4091, 4)), Ok(1));
    assert_eq!(found(9, 4096, (4, 4091)), Ok(1));
    assert_eq!(found(4097, 9, (4, 4)), Err(Refusal::Size));
    assert_eq!(found(9, 4097, (4, 4)), Err(Refusal::Size));
}

#[test]
fn the_first_refusal_is_given_and_nothing_is_written() {
    let levels = levels(9, 10, (4, 4));
    let sound = map(9, 10, &levels);
    let large = Map {
        rows: 4097,
        ..sound
    };
    let short = Map { cols: 11, ..sound };
    let high = Map { octave: 6, ..sound };
    let all = Map { octave: 6, ..large };
    let (good, bad) = (set_t(), vec![0; 527]);
    let cases = [
        (&bad, all, Refusal::Size),
        (&bad, large, Refusal::Size),
        (&bad, Map { octave: 6, ..short }, Refusal::Level),
        (&good, short, Refusal::Level),
        (&bad, high, Refusal::Octave),
        (&bad, sound, Refusal::Set),
    ];
    for (set, map, refusal) in cases {
        let mut out = [0xa5; 2 * SPOT_BYTES];
        assert_eq!(
            uramsheg::detect(set, THRESHOLDS, map, &mut out),
            Err(refusal)
        );
        assert!(out.iter().all(|&byte| byte == 0xa5), "{refusal}");
    }
}

/// Map M's thresholds with those at the places `nan` of the bit pattern given.
fn blank(nan: [bool; 5], bits: u32) -> Thresholds {
    let put = |place: usize, value| {
        if nan[place] {
            f32::from_bits(bits)
        } else {
            value
        }
    };
    Thresholds {
        peak: put(0, THRESHOLDS.peak),
        sigma: put(1, THRESHOLDS.sigma),
        ratio: put(2, THRESHOLDS.ratio),
        low: put(3, THRESHOLDS.low),
        high: put(4, THRESHOLDS.high),
    }
}

#[test]
fn a_threshold_that_is_nan_is_refused_after_the_octave_and_before_the_set() {
    let levels = levels(9, 10, (4, 4));
    let sound = map(9, 10, &levels);
    let high = Map { octave: 6, ..sound };
    let (good, bad) = (set_t(), vec![0; 527]);
    for chosen in 1..32 {
        let nan = [0, 1, 2, 3, 4].map(|place| chosen >> place & 1 == 1);
        for bits in [0x7fc0_0000, 0x7f80_0001, 0xffc0_0000, 0xff80_0001] {
            let thresholds = blank(nan, bits);
            let mut out = [0xa5; 2 * SPOT_BYTES];
            let mut refused = |set, map| uramsheg::detect(set, thresholds, map, &mut out);
            assert_eq!(refused(&good, sound), Err(Refusal::Thresholds { nan }));
            assert_eq!(refused(&bad, sound), Err(Refusal::Thresholds { nan }));
            assert_eq!(refused(&bad, high), Err(Refusal::Octave));
            assert!(out.iter().all(|&byte| byte == 0xa5));
        }
    }
}

#[test]
fn infinite_thresholds_and_a_window_from_high_to_low_are_judged() {
    let levels = levels(9, 10, (4, 4));
    let count = |thresholds| uramsheg::detect(&set_t(), thresholds, map(9, 10, &levels), &mut []);
    let open = Thresholds {
        peak: f32::NEG_INFINITY,
        sigma: f32::NEG_INFINITY,
        ratio: f32::INFINITY,
        low: f32::NEG_INFINITY,
        high: f32::INFINITY,
    };
    let reversed = Thresholds {
        low: THRESHOLDS.high,
        high: THRESHOLDS.low,
        ..THRESHOLDS
    };
    let shut = Thresholds {
        peak: f32::INFINITY,
        ..THRESHOLDS
    };
    assert_eq!(count(reversed), Ok(0));
    assert_eq!(count(shut), Ok(0));
    assert_eq!(count(open).map(|found| found > 0), Ok(true));
}

#[test]
fn the_join_sizes_each_record_by_itself() {
    let levels = levels(9, 10, (4, 4));
    let sized = uramsheg::sized_spots(&set_t(), THRESHOLDS, map(9, 10, &levels)).unwrap();
    let SizedSpot {
        spot,
        size,
        missing,
        row,
        col,
    } = sized[0];
    assert_eq!((sized.len(), row, col), (1, 4, 5));
    let corrected = uramsheg::correct(&set_t(), spot.samples, spot.sigma, spot.is_max);
    assert_eq!(size, corrected.ok());
    assert!(size.is_some());
    assert_eq!(missing, None);
}

/// Map M's record as bytes.
fn record_of_m() -> [u8; SPOT_BYTES] {
    let byte = |place: usize| u8::from_str_radix(&RECORD_OF_M[2 * place..2 * place + 2], 16);
    core::array::from_fn(|place| byte(place).unwrap())
}

#[test]
fn a_sized_record_says_why_its_size_is_missing() {
    let whole = record_of_m();
    let (mut turned, mut coarse) = (whole, whole);
    turned[38] = 0;
    coarse[8..12].copy_from_slice(&64.0f32.to_le_bytes());
    for (record, last, missing) in [
        (whole, [1, 0, 0, 0], None),
        (turned, [0, 1, 0, 0], Some(Missing::Polarity)),
        (coarse, [0, 2, 0, 0], Some(Missing::Range)),
    ] {
        let mut out = [0xa5; SIZED_BYTES];
        assert_eq!(uramsheg::join(&set_t(), 9, 10, &record, &mut out), Ok(1));
        assert_eq!(out[56..], last);
        let SizedSpot {
            spot,
            size,
            missing: read,
            ..
        } = SizedSpot::from_record(&out);
        let corrected = uramsheg::correct(&set_t(), spot.samples, spot.sigma, spot.is_max);
        assert_eq!((size, read), (corrected.ok(), missing));
        assert_eq!(corrected.err(), missing.map(Refusal::NoSize));
        assert_eq!(out[48..52] == [0; 4], missing.is_some());
    }
}

#[test]
fn a_record_from_before_causes_has_neither_a_size_nor_a_cause() {
    let mut record = [0; SIZED_BYTES];
    record[..SPOT_BYTES].copy_from_slice(&record_of_m());
    let sized = SizedSpot::from_record(&record);
    assert_eq!((sized.size, sized.missing), (None, None));
}

/// The home row and col that the join gives map M's record with another place in it, on the longest sides.
fn home(x: f32, y: f32) -> (u16, u16) {
    let mut record = record_of_m();
    record[..4].copy_from_slice(&x.to_le_bytes());
    record[4..8].copy_from_slice(&y.to_le_bytes());
    let mut out = [0; SIZED_BYTES];
    let answer = uramsheg::join(&set_t(), 4096, 4096, &record, &mut out);
    assert_eq!(answer, Ok(1), "at x {x}, y {y}");
    let sized = SizedSpot::from_record(&out);
    assert_eq!(
        (sized.spot, sized.spot.key),
        (Spot::from_record(&record), 44)
    );
    (sized.row, sized.col)
}

#[test]
fn the_home_is_the_pixel_nearest_to_the_place_a_half_to_the_larger() {
    assert_eq!(home(4.5, 4.0), (4, 5));
    assert_eq!(home(f32::from_bits(0x3eff_ffff), -0.0), (0, 0));
    assert_eq!(home(-0.0, f32::from_bits(0x3eff_ffff)), (0, 0));
    assert_eq!(home(4095.0, 4094.5), (4095, 4095));
    for n in 0..4095u16 {
        let half = f32::from(n) + 0.5;
        assert_eq!(home(half, half.next_down()), (n, n + 1));
        assert_eq!(home(half.next_down(), half), (n + 1, n));
        assert_eq!(home(f32::from(n), half.next_up()), (n + 1, n));
    }
}

#[test]
fn the_join_refuses_in_order() {
    let mut record = [0; SPOT_BYTES];
    let levels = levels(9, 10, (4, 4));
    uramsheg::detect(&set_t(), THRESHOLDS, map(9, 10, &levels), &mut record).unwrap();
    let two = [record, record].concat();
    let mut damaged = two.clone();
    damaged[SPOT_BYTES + 38] = 2;
    let join = |set: &[u8], rows, list: &[u8], room: usize| {
        let mut out = vec![0xa5; room];
        let answer = uramsheg::join(set, rows, 10, list, &mut out);
        assert!(answer.is_ok() || out.iter().all(|&byte| byte == 0xa5));
        answer
    };
    let good = set_t();
    assert_eq!(join(&[], 4097, &two[1..], 0), Err(Refusal::Size));
    assert_eq!(join(&[], 9, &two[1..], 0), Err(Refusal::Set));
    assert_eq!(
        join(&good, 9, &damaged[..95], 0),
        Err(Refusal::Records { index: 1 })
    );
    assert_eq!(
        join(&good, 9, &damaged, 0),
        Err(Refusal::Records { index: 1 })
    );
    assert_eq!(
        join(&good, 9, &two, 2 * SIZED_BYTES - 1),
        Err(Refusal::Room)
    );
    assert_eq!(join(&good, 9, &two, 2 * SIZED_BYTES), Ok(2));
    assert_eq!(join(&good, 9, &[], 0), Ok(0));
}

#[test]
fn correcting_map_m_as_a_minimum_gives_no_size() {
    let answer = uramsheg::correct(&set_t(), [-1.0, 4.0, 0.0, 0.0], 2.0, false);
    assert_eq!(answer, Err(Refusal::NoSize(Missing::Polarity)));
    let bad = uramsheg::correct(&[], [-1.0, 4.0, 0.0, 0.0], 2.0, false);
    assert_eq!(bad, Err(Refusal::Set));
}

#[test]
fn the_first_cause_that_applies_is_given() {
    let correct = |samples, sigma, is_max| uramsheg::correct(&set_t(), samples, sigma, is_max);
    let polarity = Err(Refusal::NoSize(Missing::Polarity));
    let range = Err(Refusal::NoSize(Missing::Range));
    // under set T the curve is b t^2 + c t with b and c the first two samples, and t goes to 4: from 16 its peak draws t on, beyond the range
    assert_eq!(correct([-1.0, 12.0, 0.0, 0.0], 16.0, true), range);
    assert!(correct([-1.0, 4.0, 0.0, 0.0], 16.0, true).is_ok());
    // it leads beyond the range as well, but as a minimum it is bent the wrong way, and this is weak
    assert_eq!(correct([-1.0, 12.0, 0.0, 0.0], 16.0, false), polarity);
    assert_eq!(correct([-0.25, 12.0, 0.0, 0.0], 16.0, true), polarity);
    assert_eq!(correct([-0.26, 12.0, 0.0, 0.0], 16.0, true), range);
    // neither a sigma nor a sample that is no number has a place on a curve
    assert_eq!(correct([-1.0, 4.0, 0.0, 0.0], f32::NAN, true), polarity);
    assert_eq!(correct([-1.0, f32::NAN, 0.0, 0.0], 2.0, true), polarity);
    assert_eq!(
        correct([-1.0, f32::INFINITY, 0.0, 0.0], 2.0, true),
        polarity
    );
}

#[test]
fn a_move_that_is_not_finite_is_beyond_the_range() {
    // curvature epsilon, blend beta and boost 0: none of an infinite step is no number
    let mut set = set_t();
    for word in [119, 124, 125] {
        set[4 * word..4 * word + 4].fill(0);
    }
    let answer = uramsheg::correct(&set, [1e-45, -3e38, 0.0, 0.0], 2.0, false);
    assert_eq!(answer, Err(Refusal::NoSize(Missing::Range)));
}

#[test]
fn octaves_by_the_shortest_side() {
    for (side, octaves) in [
        (0, 0),
        (9, 0),
        (10, 1),
        (64, 1),
        (65, 2),
        (1024, 5),
        (1025, 6),
        (usize::MAX, 6),
    ] {
        assert_eq!(uramsheg::octave_count(side, usize::MAX), octaves);
        assert_eq!(uramsheg::octave_count(usize::MAX, side), octaves);
    }
}

#[test]
fn halving_takes_every_second_pixel() {
    let level: Vec<f32> = (0..15).map(|place| place as f32).collect();
    let mut out = [-1.0; 3];
    assert_eq!(uramsheg::downsample(5, 3, &level, &mut out), Ok((2, 1)));
    assert_eq!(out, [0.0, 2.0, -1.0]);
    assert_eq!(uramsheg::downsample(1, 15, &level, &mut out), Ok((0, 0)));
    assert_eq!(
        uramsheg::downsample(5, 3, &level, &mut out[..1]),
        Err(Refusal::Room)
    );
    assert_eq!(
        uramsheg::downsample(5, 4, &level, &mut []),
        Err(Refusal::Level)
    );
    assert_eq!(
        uramsheg::downsample(4097, 3, &[], &mut []),
        Err(Refusal::Size)
    );
    assert_eq!(out, [0.0, 2.0, -1.0]);
}

#[test]
fn sets_are_checked() {
    let good = set_t();
    assert_eq!(uramsheg::check_set(&good), Ok(()));
    let damages = [
        (3, 0xff),
        (515, 0x7f),
        (7, 0),
        (516, 9),
        (524, 9),
        (525, 1),
        (527, 1),
    ];
    for (place, byte) in damages {
        let mut bad = good.clone();
        bad[place] = byte;
        if place == 3 || place == 515 {
            bad[place - 1] = 0xff;
        }
        let answer = uramsheg::check_set(&bad);
        assert_eq!(answer, Err(Refusal::Set), "byte {place} set to {byte}");
    }
    assert_eq!(uramsheg::check_set(&good[..527]), Err(Refusal::Set));
}

#[test]
fn refusals_have_their_numbers_and_words() {
    for number in 1..=13 {
        let refusal = Refusal::from_number(number, 2).unwrap();
        assert_eq!(refusal.number(), number);
        assert!(!refusal.to_string().is_empty());
    }
    assert_eq!(Refusal::from_number(0, 0), None);
    assert_eq!(Refusal::from_number(14, 0), None);
    for cause in [0, 3, 257, usize::MAX] {
        assert_eq!(Refusal::from_number(7, cause), None);
    }
}

#[test]
fn causes_have_their_numbers_and_words() {
    for (number, cause, words) in [
        (
            1,
            Missing::Polarity,
            "no size: the curve is not one of this polarity",
        ),
        (2, Missing::Range, "no size: beyond the fitted range"),
    ] {
        assert_eq!(Missing::from_number(number), Some(cause));
        assert_eq!(usize::from(cause.number()), number);
        assert_eq!(
            Refusal::from_number(7, number),
            Some(Refusal::NoSize(cause))
        );
        assert_eq!(cause.to_string(), words);
        assert_eq!(Refusal::NoSize(cause).to_string(), words);
        // a spot without a size is told of in C as it is here
        let source = include_str!("../../../examples/spot.h");
        assert!(source.contains(&format!("\"{words}\"")), "{words}");
    }
    for number in [0, 3, 257, usize::MAX] {
        assert_eq!(Missing::from_number(number), None);
    }
}

#[test]
fn a_refused_threshold_is_named() {
    let words = |nan| Refusal::Thresholds { nan }.to_string();
    let one = words([false, false, true, false, false]);
    assert!(
        one.starts_with("a threshold is not a number: ratio;"),
        "{one}"
    );
    let two = words([true, false, false, false, true]);
    assert!(
        two.starts_with("a threshold is not a number: peak, high;"),
        "{two}"
    );
}

#[test]
fn a_record_reads_as_a_spot() {
    let mut record = [0; SPOT_BYTES];
    let levels = levels(9, 10, (4, 4));
    uramsheg::detect(&set_t(), THRESHOLDS, map(9, 10, &levels), &mut record).unwrap();
    let spot = Spot {
        x: 4.5,
        y: 4.0,
        sigma: 2.0,
        peak: 4.0,
        samples: [-1.0, 4.0, 0.0, 0.0],
        key: 44,
        octave: 0,
        scale_index: 1,
        is_max: true,
        dx: 0.5,
        dy: 0.0,
    };
    assert_eq!(Spot::from_record(&record), spot);
}
