//! What the comparison does not reach: indexes past the end, slices that are too short, records that are refused.
#![cfg(feature = "probe")]

use cases::Set;
use subject::probe::*;

const FOUR: [f32; 4] = [1.0, 2.0, 4.0, 8.0];

const SPOT: Fresh = Fresh {
    x: 5.0,
    y: 6.0,
    sigma: 2.0,
    peak: 1.0,
    is_max: true,
};

#[test]
fn past_the_end_is_nan() {
    let set = &Set::t().record();
    for past in [0, 1, usize::MAX - 64] {
        assert!(probe_cubic(set, false, FOUR, 4 + past).is_nan());
        assert!(probe_cubic(set, true, FOUR, 4 + past).is_nan());
        assert!(probe_envelope(set, FOUR, 4 + past).is_nan());
        assert!(probe_extrema(set, FOUR, 1.0, 2.0, 4 + past).is_nan());
        assert!(probe_spatial(set, 1, &[0.0; 9], 5 + past).is_nan());
        assert!(probe_refine(set, &[0.0; 36], SPOT, 10.0, 6 + past).is_nan());
        assert!(probe_gaussian(1.0, 18 + past).is_nan());
        assert!(probe_kernel(0, 3.0, 1.0, 18 + past).is_nan());
    }
}

#[test]
fn missing_values_are_nan() {
    let set = &Set::t().record();
    // Set T's w2 is the sample 5, and 0 times every other.
    assert_eq!(probe_spatial(set, 1, &[1.0; 9], 1), 1.0);
    for length in 0..9 {
        assert!(probe_spatial(set, 1, &vec![1.0; length], 1).is_nan());
    }
    for length in 0..36 {
        let left: Vec<f32> = (0..6)
            .map(|i| probe_refine(set, &vec![1.0; length], SPOT, 10.0, i))
            .collect();
        assert_eq!(left, [0.0, 5.0, 6.0, 2.0, 1.0, 0.0]);
    }
}

#[test]
fn a_refused_record_is_a_set_of_zeros() {
    let mut bad = Set::t();
    bad.order[0] = 9;
    let bad = bad.record();
    for set in [&bad[..], &bad[..527], &[]] {
        let coefficients: Vec<f32> = (0..4).map(|i| probe_cubic(set, false, FOUR, i)).collect();
        assert_eq!(coefficients, [0.0, 0.0, 0.0, 8.0]);
        assert_eq!(probe_index(set, 0.5), 2);
        assert_eq!(probe_band(set, 2.0, true), 0.0);
        assert_eq!(probe_statistic(set, FOUR), -2.0);
        assert_eq!(probe_beta(set, Some(1.0)), 0.0);
        assert_eq!(probe_bounded(set, 2.0, 3.0), 0.0);
        assert_eq!(probe_model(set, [1.0, 2.0, 3.0, 4.0, 5.0]), 5.0);
    }
}

#[test]
fn an_absent_statistic_takes_the_set_s_beta() {
    let set = Set::t();
    let record = &set.record();
    let mixed = [1.0, -1.0, 1.0, 1.0];
    assert_eq!(probe_statistic(record, mixed), -1.0);
    assert_eq!(probe_beta(record, None), set.numbers[6]);
    assert_eq!(probe_blend(record, mixed), set.numbers[6]);
}

/// What two buffers of six floats, each 9 before, hold after a blur of a map of rows by cols by kernels of this radius and so many taps.
fn blurred(
    radius: usize,
    taps: [usize; 2],
    sides: (usize, usize),
    raw: usize,
) -> (bool, [f32; 12]) {
    let (held, mut left) = ([0.5; 18], [9.0; 12]);
    let kernels = taps.map(|count| Given {
        radius,
        taps: &held[..count],
    });
    let (out_a, out_b) = left.split_at_mut(6);
    let map = (sides.0, sides.1, &[1.0; 8][..raw]);
    (probe_blur(kernels, map, [out_a, out_b]), left)
}

#[test]
fn a_blur_is_refused_and_writes_nothing() {
    assert_eq!(blurred(0, [17, 17], (3, 2), 6), (true, [0.25; 12]));
    let refused = (false, [9.0; 12]);
    assert_eq!(blurred(0, [16, 17], (3, 2), 6), refused);
    assert_eq!(blurred(0, [17, 18], (3, 2), 6), refused);
    assert_eq!(blurred(17, [17, 17], (3, 2), 6), refused);
    assert_eq!(blurred(0, [17, 17], (3, 2), 7), refused);
    assert_eq!(blurred(0, [17, 17], (7, 1), 7), refused);
    assert_eq!(blurred(0, [17, 17], (4097, 0), 0), refused);
    assert_eq!(blurred(0, [17, 17], (usize::MAX, 2), 6), refused);
}
