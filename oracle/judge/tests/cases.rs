//! Numbers of documents 01 and 02, from the judge.

use judge::{
    Answer, Logs, Map, NoSize, OLD_SIZED, OLD_SPOT, Pass, RawMap, Rules, SIZED, SPOT, Set,
    Thresholds, inner, levels,
};

const RULES: [Rules; 2] = [Rules::Published, Rules::Document];

#[test]
fn the_printed_cases_are_document_01s() {
    let line = "00009040000080400000004000008040000080bf0000804000000000000000002c000000000101000000003f00000000\nfound 1\n";
    let expected = [
        ("P9", line),
        ("P10", "found 0\n"),
        ("P11", line),
        ("P12", "refused 7\n"),
    ];
    let printed = judge::cases::all();
    for ((name, text), (expected_name, expected_text)) in printed.iter().zip(expected) {
        assert_eq!((*name, text.as_str()), (expected_name, expected_text));
    }
}

#[test]
fn powers_of_two_have_whole_logarithms() {
    for exponent in -149..=127 {
        let bits = if exponent < -126 {
            1 << (exponent + 149)
        } else {
            ((exponent + 127) as u32) << 23
        };
        assert_eq!(judge::steps::log2(f32::from_bits(bits)), exponent as f32);
    }
}

#[test]
fn the_inner_functions_give_p4_to_p8() {
    let t = Set::t();
    for rules in RULES {
        assert_eq!(inner::horner(rules, &t, [1.0, 2.0, 3.0, 4.0], 2.0), 26.0);
        let extreme =
            |cubic, low, high, is_max| inner::band_extreme(rules, &t, cubic, low, high, is_max);
        assert_eq!(extreme([0.0, -1.0, 4.0, 0.0], 1.0, 3.0, true), 4.0);
        assert_eq!(extreme([0.0, -1.0, 4.0, 0.0], 1.0, 3.0, false), 3.0);
        assert_eq!(extreme([1.0, 0.0, -3.0, 0.0], 0.5, 2.0, true), 2.0);
        assert_eq!(extreme([1.0, 0.0, -3.0, 0.0], 0.5, 2.0, false), -2.0);
        assert_eq!(
            inner::scale_envelope(rules, &t, [-1.0, 4.0, 0.0, 0.0]),
            (-1.0, 4.0, 0.0, 2.0)
        );
    }
    for (side, count) in [(9, 0), (10, 1), (64, 1), (65, 2), (1025, 6)] {
        assert_eq!(judge::octave_count_rule(side, 4096), count);
    }
}

#[test]
fn the_octave_count_by_logarithm_is_the_whole_number_rule() {
    for side in 0..=4096 {
        let rule = judge::octave_count_rule(side, 4096);
        assert_eq!(
            judge::octave_count_published(4096, side),
            rule,
            "side {side}"
        );
        assert_eq!(
            judge::octave_count_by_steps(4096, side),
            rule,
            "side {side}, by steps"
        );
        assert_eq!(
            judge::fixed::octave_count(side, side + 1),
            rule,
            "side {side}, as published"
        );
    }
}

#[test]
fn the_steps_are_near_an_independent_f64() {
    let mut log_worst = 0.0f64;
    for bits in (0.25f32.to_bits()..=16.0f32.to_bits()).step_by(97) {
        let x = f32::from_bits(bits);
        log_worst = log_worst.max((judge::steps::log2(x) as f64 - (x as f64).log2()).abs());
    }
    assert!(log_worst < 2f64.powi(-20), "{log_worst:e}");
    let mut exp_worst = 0.0f64;
    for bits in (0..=8.0f32.to_bits()).step_by(997) {
        for x in [f32::from_bits(bits), -f32::from_bits(bits)] {
            exp_worst = exp_worst.max((judge::steps::exp(x) as f64 / (x as f64).exp() - 1.0).abs());
        }
    }
    assert!(exp_worst < 2f64.powi(-20), "{exp_worst:e}");
}

#[test]
fn the_steps_keep_their_claims_at_the_edges() {
    let (log2, exp) = (judge::steps::log2, judge::steps::exp);
    assert!(log2(f32::NAN).is_nan() && log2(-1e-45).is_nan() && log2(f32::NEG_INFINITY).is_nan());
    assert_eq!(
        (log2(0.0), log2(-0.0)),
        (f32::NEG_INFINITY, f32::NEG_INFINITY)
    );
    assert_eq!(log2(f32::INFINITY), f32::INFINITY);
    assert!(exp(f32::NAN).is_nan());
    assert_eq!((exp(0.0), exp(-0.0), exp(89.0)), (1.0, 1.0, f32::INFINITY));
    assert_eq!(
        (exp(-104.0).to_bits(), exp(f32::NEG_INFINITY).to_bits()),
        (0, 0)
    );
    for bits in (0..=u32::MAX).step_by(4099) {
        let x = f32::from_bits(bits);
        assert!(x.is_nan() || exp(x) >= 0.0);
        if x > 0.0 && x.is_finite() {
            let floor = (x as f64).log2().floor() as f32;
            assert!(log2(x) >= floor && log2(x) <= floor + 1.0);
        }
    }
}

const TH: Thresholds = Thresholds {
    peak: 1.0,
    sigma: 1.0,
    ratio: 10.0,
    low: 1.9027314,
    high: 4.1498866,
};

fn number(answer: Answer) -> u32 {
    match answer {
        Answer::Done(_) => 0,
        Answer::Refused { number, .. } => number,
    }
}

/// The reference's answer on a map of ten columns.
fn detected(
    set: &Set,
    thresholds: Thresholds,
    rows: usize,
    octave: usize,
    levels: [&[f32]; 4],
    out: &mut [u8],
) -> Answer {
    let map = Map {
        thresholds,
        rows,
        cols: 10,
        octave,
        levels,
    };
    judge::detect(Rules::Document, Pass::Reference, set, map, out)
}

#[test]
fn detection_refuses_in_the_tables_order() {
    let good = Set::t();
    let mut bad = Set::t();
    bad.order[3] = 9;
    let level = [0.0; 90];
    let blank = Thresholds {
        ratio: f32::NAN,
        ..TH
    };
    for (set, thresholds, rows, octave, expected) in [
        (&good, TH, 9, 0, 0),
        (&bad, TH, 9, 0, 4),
        (&good, blank, 9, 0, 8),
        (&bad, blank, 9, 0, 8),
        (&bad, blank, 9, 6, 3),
        (&bad, blank, 8, 6, 2),
        (&bad, blank, 4097, 6, 1),
        (&good, TH, 4097, 0, 1),
    ] {
        let mut out = [7; 48];
        let answer = detected(set, thresholds, rows, octave, [&level; 4], &mut out);
        assert_eq!((number(answer), out), (expected, [7; 48]));
    }
}

/// Map M's four levels, one after another.
fn pixels_of_m() -> Vec<f32> {
    let pixel = |bytes: &[u8]| f32::from_le_bytes(bytes.try_into().unwrap());
    let input = judge::cases::map_m(None);
    input[560..].chunks_exact(4).map(pixel).collect()
}

/// How many spots the Rust itself, without refusals, lists on map M, by both passes.
fn counts_of_m(thresholds: Thresholds) -> [usize; 2] {
    let pixels = pixels_of_m();
    let map = Map {
        thresholds,
        rows: 9,
        cols: 10,
        octave: 0,
        levels: core::array::from_fn(|k| &pixels[90 * k..90 * (k + 1)]),
    };
    [Pass::Reference, Pass::Streaming].map(|pass| judge::fixed::time(0, pass, map).1)
}

#[test]
fn in_the_rust_every_ratio_passes_a_limit_that_is_nan() {
    let count = |ratio| counts_of_m(Thresholds { ratio, ..TH });
    assert_eq!(count(4.0), [1, 1]);
    assert_eq!(count(4.0f32.next_down()), [0, 0]);
    assert_eq!(count(f32::NAN), [1, 1]);
}

#[test]
fn in_the_rust_nothing_passes_another_limit_that_is_nan() {
    let nan = f32::NAN;
    for thresholds in [
        Thresholds { peak: nan, ..TH },
        Thresholds { sigma: nan, ..TH },
        Thresholds { low: nan, ..TH },
        Thresholds { high: nan, ..TH },
    ] {
        assert_eq!(counts_of_m(thresholds), [0, 0]);
    }
}

#[test]
fn short_spot_buffers_keep_their_other_bytes() {
    let pixels = pixels_of_m();
    let levels: [&[f32]; 4] = core::array::from_fn(|k| &pixels[90 * k..90 * (k + 1)]);
    for (room, written) in [(0, 0), (47, 0), (48, 48), (95, 48), (120, 48)] {
        let mut out = vec![0xa5; room];
        let answer = detected(&Set::t(), TH, 9, 0, levels, &mut out);
        assert_eq!(answer, Answer::Done(1));
        assert!(out[written..].iter().all(|&byte| byte == 0xa5) && (written == 0 || out[39] == 0));
    }
}

#[test]
fn a_small_w1_is_rejected_by_its_own_gate() {
    let mut set = Set::t();
    for block in set.spatial.chunks_exact_mut(45) {
        block[3] = 1e-12;
        block[9 + 5] = 1e6;
    }
    let mut input = judge::cases::map_m(None);
    input[..528].copy_from_slice(&set.to_record());
    judge::reset_counts();
    assert_eq!(judge::list_program(&input, true), b"found 0\n");
    assert!(judge::counts().contains(&("w1 small", 1)));
}

#[test]
fn the_list_program_refuses_in_its_order() {
    let sound = judge::cases::map_m(None);
    let with = |changes: &[(usize, u8)], cut: usize| {
        let mut input = sound.clone();
        changes.iter().for_each(|&(at, byte)| input[at] = byte);
        input.truncate(input.len() - cut);
        String::from_utf8(judge::list_program(&input, true)).unwrap()
    };
    let (side, octave, spare) = ((548, 61), (556, 6), (527, 1));
    let ratio = [(538, 0xc0), (539, 0x7f)];
    assert_eq!(with(&[side, octave, spare], 1), "refused 1\n");
    assert_eq!(with(&[octave, spare], 1), "refused 2\n");
    assert_eq!(with(&[octave, spare], 0), "refused 3\n");
    assert_eq!(with(&[octave, ratio[0], ratio[1]], 0), "refused 3\n");
    assert_eq!(with(&[spare, ratio[0], ratio[1]], 0), "refused 8\n");
    assert_eq!(with(&[spare], 0), "refused 4\n");
    assert_eq!(with(&[side], sound.len() - 559), "refused 2\n");
    assert_eq!(judge::list_program(&[], true), b"refused 2\n");
}

/// Map M's one record.
fn record_of_m() -> Vec<u8> {
    let line = judge::cases::all()[0].1.clone();
    let byte = |k: usize| u8::from_str_radix(&line[2 * k..2 * k + 2], 16).unwrap();
    (0..SPOT).map(byte).collect()
}

/// One of the two joins.
type Join = fn(Logs, &Set, usize, usize, &[u8], &mut [u8]) -> Answer;

/// Both joins with the bytes of their records and of their sized records.
const JOINS: [(Join, usize, usize); 2] = [
    (judge::join, SPOT, SIZED),
    (judge::join_old, OLD_SPOT, OLD_SIZED),
];

#[test]
fn both_joins_refuse_in_their_order_and_size_p9() {
    for (join, spot, sized) in JOINS {
        let record = &record_of_m()[..spot];
        let mut bad = Set::t();
        bad.numbers[10] = -1.0;
        let run = |set: &Set, rows, list: &[u8], room: usize| {
            let mut out = vec![9; room];
            let answer = join(Logs::Steps, set, rows, 10, list, &mut out);
            (answer, out)
        };
        let refused = |number, index| Answer::Refused { number, index };
        let mut twice = [record, record].concat();
        for length in spot + 1..2 * spot {
            assert_eq!(run(&bad, 4097, &twice[..length], 0).0, refused(1, 0));
            assert_eq!(run(&bad, 9, &twice[..length], 0).0, refused(4, 0));
            assert_eq!(run(&Set::t(), 9, &twice[..length], 0).0, refused(5, 1));
        }
        assert_eq!(run(&Set::t(), 4, &twice, 0).0, refused(5, 0));
        let room = 2 * sized - 1;
        assert_eq!(
            run(&Set::t(), 9, &twice, room),
            (refused(6, 0), vec![9; room])
        );
        twice[spot + 39] = 1;
        assert_eq!(run(&Set::t(), 9, &twice, 0).0, refused(5, 1));
        let (answer, out) = run(&Set::t(), 9, record, sized + 8);
        assert_eq!((answer, &out[..spot]), (Answer::Done(1), record));
        assert_eq!(out[spot + 4..spot + 8], [4, 0, 5, 0]);
        assert_eq!(
            (&out[spot + 9..sized], &out[sized..]),
            (&[0; 3][..], &[9; 8][..])
        );
    }
}

#[test]
fn a_list_of_the_other_form_is_no_whole_number_of_records() {
    let record = record_of_m();
    let of = |join: Join, list: &[u8]| join(Logs::Steps, &Set::t(), 9, 10, list, &mut [0; 60]);
    let refused = |index| Answer::Refused { number: 5, index };
    assert_eq!(of(judge::join, &record[..OLD_SPOT]), refused(0));
    assert_eq!(of(judge::join_old, &record), refused(1));
}

#[test]
fn what_an_old_list_gives_is_the_joins_without_the_displacement() {
    let record = record_of_m();
    let (mut present, mut former) = ([0; SIZED], [0; OLD_SIZED]);
    judge::join(Logs::Steps, &Set::t(), 9, 10, &record, &mut present);
    judge::join_old(
        Logs::Steps,
        &Set::t(),
        9,
        10,
        &record[..OLD_SPOT],
        &mut former,
    );
    assert_eq!(
        former[..],
        [&present[..OLD_SPOT], &present[SPOT..]].concat()
    );
}

#[test]
fn a_record_is_bad_where_its_displacement_is_too_far_or_not_finite() {
    let farthest = f32::from_bits(0x3f19_999a);
    let fine = [
        0.0,
        -0.0,
        0.5,
        farthest,
        -farthest,
        1e-45,
        -f32::MIN_POSITIVE,
    ];
    let bad = [
        farthest.next_up(),
        (-farthest).next_down(),
        1.0,
        f32::MAX,
        f32::INFINITY,
        f32::NEG_INFINITY,
        f32::NAN,
        -f32::NAN,
    ];
    let answer = |at: usize, delta: f32| {
        let mut record = record_of_m();
        record[at..at + 4].copy_from_slice(&delta.to_le_bytes());
        let mut out = [0; SIZED];
        let answer = judge::join(Logs::Steps, &Set::t(), 9, 10, &record, &mut out);
        (answer, out[..SPOT] == record)
    };
    for at in [40, 44] {
        for delta in fine {
            assert_eq!(answer(at, delta), (Answer::Done(1), true), "{delta:e}");
        }
        for delta in bad {
            let refused = Answer::Refused {
                number: 5,
                index: 0,
            };
            assert_eq!(answer(at, delta), (refused, false), "{delta:e}");
        }
    }
}

#[test]
fn a_displacement_of_no_size_is_stored_as_plus_zero() {
    for weight in [0.0, -0.0f32] {
        let mut set = Set::t();
        for place in [27, 36, 45 + 27, 45 + 36] {
            set.spatial[place + 4] = weight;
        }
        let mut input = judge::cases::map_m(None);
        input[..528].copy_from_slice(&set.to_record());
        let line = String::from_utf8(judge::list_program(&input, true)).unwrap();
        assert_eq!(&line[80..96], "0000000000000000");
    }
}

/// The size that a set gives these samples, or the refusal's number and its cause, by both rules and both logarithms.
fn corrected(set: &Set, samples: [f32; 4], sigma: f32, is_max: bool) -> Result<f32, (u32, u8)> {
    let by = |rules, logs| judge::correct(rules, logs, set, samples, sigma, is_max);
    let size = by(Rules::Document, Logs::Steps);
    for (rules, logs) in RULES
        .map(|rules| [(rules, Logs::Steps), (rules, Logs::Rust)])
        .concat()
    {
        assert_eq!(by(rules, logs).err(), size.err());
    }
    size.map_err(|NoSize { number, cause }| (number, cause))
}

#[test]
fn a_correction_tells_the_first_of_its_two_causes() {
    let t = Set::t();
    let spot = [-1.0, 4.0, 0.0, 0.0];
    assert!(corrected(&t, spot, 2.0, true).is_ok());
    assert_eq!(corrected(&t, spot, 2.0, false), Err((7, 1)));
    for sigma in [0.0, -1.0, f32::INFINITY, f32::NAN] {
        assert_eq!(corrected(&t, spot, sigma, true), Err((7, 1)));
    }
    // At T 2 the slope overflows, at T 1 it doesn't.
    let steep = [1e38, 0.0, 0.0, 0.0];
    assert!(corrected(&t, steep, 2.0, false).is_ok());
    assert_eq!(corrected(&t, steep, 4.0, false), Err((7, 1)));
    // As a maximum the spot goes to T 1.5.
    let mut narrow = Set::t();
    narrow.numbers[3] = 1.0;
    assert_eq!(corrected(&narrow, spot, 2.0, true), Err((7, 2)));
    assert_eq!(corrected(&narrow, spot, 2.0, false), Err((7, 1)));
    let mut bad = narrow;
    bad.order[0] = 9;
    assert_eq!(corrected(&bad, spot, 2.0, false), Err((4, 0)));
    // The raw step is infinite, and 0 times it no number.
    let mut still = Set::t();
    for place in [1, 6, 7] {
        still.numbers[place] = 0.0;
    }
    let far = [1e-45, -3e38, 0.0, 0.0];
    assert_eq!(corrected(&still, far, 2.0, false), Err((7, 2)));
}

#[test]
fn set_ts_curvature_turns_polarity_into_range() {
    let mut set = Set::t();
    set.numbers[3] = -1.0;
    // The curvature is twice the first sample, the epsilon 0.5.
    let at = |first: f32, is_max| corrected(&set, [first, 0.0, 0.0, 0.0], 2.0, is_max);
    assert_eq!(at(0.25, false), Err((7, 1)));
    assert_eq!(at(0.25f32.next_up(), false), Err((7, 2)));
    assert_eq!(at(-0.25, true), Err((7, 1)));
    assert_eq!(at((-0.25f32).next_down(), true), Err((7, 2)));
}

#[test]
fn a_statistic_tells_the_first_of_its_causes() {
    let t = Set::t();
    let mut tiny = Set::t();
    tiny.sigmas[0] = 1e-10;
    let least = f32::from_bits(1);
    // One over two to the -128 overflows, one over the next float doesn't.
    let over = f32::from_bits(0x0020_0000);
    for (set, samples, expected) in [
        (&t, [0.0, 1.0, 1.0, 1.0], Err(1)),
        (&t, [1.0, 1.0, -0.0, 1.0], Err(1)),
        (&t, [1.0, 1.0, 1.0, -1.0], Err(1)),
        (&t, [f32::INFINITY, 1.0, 1.0, 1.0], Err(1)),
        (&t, [1.0, f32::NAN, 1.0, 1.0], Err(1)),
        (&t, [least, 1.0, 1.0, 1.0], Err(2)),
        (&t, [-1.0, -1.0, -1.0, -least], Err(2)),
        (&t, [over, 1.0, 1.0, 1.0], Err(2)),
        (&tiny, [3e38, 1.0, 1.0, 1.0], Err(2)),
        (&t, [over.next_up(), 1.0, 1.0, 1.0], Err(3)),
        (&t, [1.0, 16.0, 81.0, 256.0], Err(3)),
        (&t, [1.0, 4.0, 9.0, 16.0], Err(3)),
        (&t, [1.0; 4], Ok(())),
        (&t, [-1.0; 4], Ok(())),
    ] {
        for rules in RULES {
            let statistic = inner::profile_compatibility_statistic(rules, set, samples);
            assert_eq!(statistic.map(|_| ()), expected, "{samples:?}");
            assert!(statistic.is_err() || statistic.is_ok_and(|number| number >= 0.0));
        }
    }
}

#[test]
fn a_sized_record_tells_its_cause_in_its_first_spare_byte() {
    let spot = record_of_m();
    let (mut turned, mut far) = (spot.clone(), spot.clone());
    turned[38] = 0;
    far[8..12].copy_from_slice(&1e6f32.to_le_bytes());
    let due = [
        (&far, [0, 2, 0, 0]),
        (&spot, [1, 0, 0, 0]),
        (&turned, [0, 1, 0, 0]),
        (&spot, [1, 0, 0, 0]),
        (&turned, [0, 1, 0, 0]),
        (&far, [0, 2, 0, 0]),
    ];
    let list: Vec<u8> = due
        .iter()
        .flat_map(|(record, _)| (*record).clone())
        .collect();
    let mut out = [9; 6 * SIZED];
    let answer = judge::join(Logs::Steps, &Set::t(), 9, 10, &list, &mut out);
    assert_eq!(answer, Answer::Done(6));
    for ((_, end), record) in due.iter().zip(out.chunks_exact(SIZED)) {
        assert_eq!(record[56..], end[..]);
        assert_eq!(record[48..52] == [0; 4], end[0] == 0);
    }
}

/// The home row and col of a record with another place in it, on the longest sides.
fn home(record: &[u8], x: f32, y: f32) -> [u16; 2] {
    let mut record = record.to_vec();
    record[..4].copy_from_slice(&x.to_le_bytes());
    record[4..8].copy_from_slice(&y.to_le_bytes());
    let mut out = [9; SIZED];
    let answer = judge::join(Logs::Steps, &Set::t(), 4096, 4096, &record, &mut out);
    assert_eq!(answer, Answer::Done(1));
    [52, 54].map(|at| u16::from_le_bytes([out[at], out[at + 1]]))
}

#[test]
fn the_home_is_the_pixel_nearest_to_the_place_a_half_to_the_larger() {
    let record = record_of_m();
    let home = |x: f32, y: f32| home(&record, x, y);
    for (place, nearest) in [(0.0, 0), (-0.0, 0), (1e-45, 0), (4095.0, 4095)] {
        assert_eq!(home(place, 7.0), [7, nearest]);
        assert_eq!(home(7.0, place), [nearest, 7]);
    }
    assert_eq!(home(f32::from_bits(0x3eff_ffff), 4.5), [5, 0]);
    for n in 0..4095u16 {
        let half = f32::from(n) + 0.5;
        assert_eq!(home(half, half.next_down()), [n, n + 1]);
        assert_eq!(home(half.next_down(), half.next_up()), [n + 1, n]);
    }
}

#[test]
fn halving_takes_even_pixels_and_keeps_the_rest() {
    let level: Vec<f32> = (0..15).map(|k| k as f32).collect();
    let mut out = [-1.0; 4];
    assert_eq!(judge::downsample(5, 3, &level, &mut out), Ok((2, 1)));
    assert_eq!(out, [0.0, 2.0, -1.0, -1.0]);
    assert_eq!(judge::downsample(5, 3, &level, &mut out[..1]), Err(6));
    assert_eq!(judge::downsample(1, 15, &level, &mut []), Ok((0, 0)));
    assert_eq!(judge::downsample(5, 4, &level, &mut []), Err(2));
    assert_eq!(judge::downsample(4097, 4, &level, &mut []), Err(1));
}

#[test]
fn a_set_reads_back_from_its_record() {
    for index in 0..judge::fixed::NAMES.len() {
        let record = judge::fixed::set(index).to_record();
        let back = Set::from_record(&record).expect("a fixed set is good");
        assert_eq!(back.to_record(), record);
        assert!(Set::from_record(&record[..527]).is_none());
    }
}

#[test]
fn a_tap_of_set_t_by_the_step_list_and_by_rusts_exp() {
    let tap = |logs| levels::kernels(logs, &Set::t(), 0)[1].taps[1].to_bits();
    assert_eq!(
        (tap(Logs::Steps), tap(Logs::Rust)),
        (0x3e38_c060, 0x3e38_c061)
    );
}

#[test]
fn radii_are_cut_at_16() {
    let radius = |sigma| levels::gaussian(Logs::Steps, sigma).radius;
    for k in 1..=16usize {
        assert_eq!(radius(k as f32 / 3.0 - 0.01), k);
    }
    assert_eq!((radius(f32::EPSILON.next_down()), radius(-1.0)), (0, 0));
    assert_eq!((radius(f32::EPSILON), radius(f32::NAN)), (1, 0));
    let flat = levels::gaussian(Logs::Steps, f32::INFINITY);
    assert_eq!((flat.radius, flat.taps), (16, vec![1.0 / 33.0; 17]));
    let mut set = Set::t();
    set.sigmas = [1.0, 2.0, 2e19, 3e19];
    let radii = levels::kernels(Logs::Steps, &set, 0).map(|kernel| kernel.radius);
    assert_eq!(radii, [3, 6, 16, 16]);
}

/// The number that levels answer, and what the four buffers hold then; before, each float of them is 9.
fn levelled(record: &[u8], map: RawMap, rooms: [usize; 4]) -> (u32, Vec<f32>) {
    let mut out = rooms.map(|room| vec![9.0; room]);
    let number = judge::levels(record, map, &mut out)
        .err()
        .unwrap_or_default();
    (number, out.iter().flatten().copied().collect())
}

#[test]
fn levels_refuse_in_their_order_and_keep_what_is_past_them() {
    let good = Set::t().to_record();
    let mut spare = good;
    spare[527] = 1;
    let pixels = [1.0; 6];
    let map = |rows, octave, length: usize| RawMap {
        rows,
        cols: 2,
        octave,
        pixels: &pixels[..length],
    };
    let short = [6, 6, 6, 5];
    for (record, map, expected) in [
        (&good[..], map(3, 5, 6), 6),
        (&spare[..], map(3, 5, 6), 4),
        (&good[..527], map(3, 5, 6), 4),
        (&spare[..], map(3, 6, 6), 3),
        (&spare[..], map(3, 6, 5), 2),
        (&spare[..], map(4097, 6, 5), 1),
    ] {
        let kept = (expected, vec![9.0; 23]);
        assert_eq!(levelled(record, map, short), kept);
    }
    let (number, left) = levelled(&good, map(3, 0, 6), [6, 7, 6, 8]);
    assert_eq!((number, left[12], &left[25..]), (0, 9.0, &[9.0, 9.0][..]));
    let near_one = |pixel: &f32| (pixel - 1.0).abs() < 1e-6;
    assert!(left[..12].iter().all(near_one) && left[13..25].iter().all(near_one));
}

#[test]
fn a_sum_starts_at_the_centre() {
    let map = RawMap {
        rows: 1,
        cols: 1,
        octave: 0,
        pixels: &[-0.0],
    };
    let (number, left) = levelled(&Set::t().to_record(), map, [1; 4]);
    let bits: Vec<u32> = left.iter().map(|pixel| pixel.to_bits()).collect();
    assert_eq!((number, bits), (0, vec![0x8000_0000; 4]));
}

#[test]
fn a_lost_raw_pixel_reaches_the_radius_and_no_further() {
    let (rows, cols) = (41, 38);
    let sound: Vec<f32> = (0..rows * cols).map(|at| (at % 7) as f32 - 3.0).collect();
    for (octave, row, col, lost) in [
        (0, 20, 19, f32::NAN),
        (0, 0, 0, f32::INFINITY),
        (1, 40, 5, f32::NEG_INFINITY),
    ] {
        let mut lossy = sound.clone();
        lossy[col * rows + row] = lost;
        let [clean, made] = [&sound, &lossy].map(|pixels| {
            let map = RawMap {
                rows,
                cols,
                octave,
                pixels,
            };
            let mut out = [0; 4].map(|_| vec![0.0; rows * cols]);
            judge::levels(&Set::t().to_record(), map, &mut out).map(|()| out)
        });
        let (clean, made) = (clean.unwrap(), made.unwrap());
        let kernels = levels::kernels(Logs::Steps, &Set::t(), octave);
        for (level, kernel) in kernels.iter().enumerate() {
            for at in 0..rows * cols {
                let off = (at % rows).abs_diff(row).max((at / rows).abs_diff(col));
                let pixel = made[level][at];
                match off <= kernel.radius {
                    true => assert!(!pixel.is_finite()),
                    false => assert_eq!(pixel.to_bits(), clean[level][at].to_bits()),
                }
            }
        }
    }
}
