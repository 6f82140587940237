//! The feed of columns, request No. 6, through the archive.

mod common;

use common::set_t;
use uramsheg::{FEED_BYTES, Feed, Map, RING_COLUMNS, Refusal, SPOT_BYTES, Spot, Thresholds};

const THRESHOLDS: Thresholds = Thresholds {
    peak: 1.0,
    sigma: 1.0,
    ratio: 10.0,
    low: 1.9027314,
    high: 4.1498866,
};

const ROWS: usize = 9;
const COLS: usize = 12;

/// Map M's blob at some pixels of a map of 9 by 12.
fn levels(blobs: &[(usize, usize)]) -> [Vec<f32>; 4] {
    let mut levels = [0; 4].map(|_| vec![0.0; ROWS * COLS]);
    for (row, col) in blobs {
        levels[0][col * ROWS + row] = 0.25;
        levels[1][col * ROWS + row] = -0.25;
    }
    levels
}

/// The four columns of one number.
fn column(levels: &[Vec<f32>; 4], number: usize) -> [&[f32]; 4] {
    levels
        .each_ref()
        .map(|level| &level[number * ROWS..][..ROWS])
}

fn started() -> Feed {
    Feed::start(&set_t(), THRESHOLDS, ROWS, COLS, 0).unwrap()
}

/// The map's spots by detection.
fn detected(levels: &[Vec<f32>; 4]) -> Vec<Spot> {
    let map = Map {
        rows: ROWS,
        cols: COLS,
        octave: 0,
        levels: levels.each_ref().map(Vec::as_slice),
    };
    uramsheg::spots(&set_t(), THRESHOLDS, map).unwrap()
}

#[test]
fn a_columns_spots_come_with_the_column_two_further() {
    let levels = levels(&[(4, 4), (4, 7)]);
    let mut feed = started();
    let mut all = Vec::new();
    for number in 0..COLS {
        let found = feed.push(column(&levels, number)).unwrap();
        assert_eq!(found.len(), usize::from(number == 6 || number == 9));
        all.extend(found);
    }
    all.sort_by_key(|spot| (spot.key, spot.is_max));
    assert_eq!(all, detected(&levels));
    assert_eq!(all.len(), 2);
}

#[test]
fn spots_come_one_by_one_from_columns_in_turn() {
    let levels = levels(&[(4, 4), (4, 7)]);
    let mut feed = started();
    let columns = (0..COLS).map(|number| column(&levels, number).map(<[f32]>::to_vec));
    let spots: Result<Vec<Spot>, Refusal> = feed.spots(columns).collect();
    assert_eq!(spots.unwrap(), detected(&levels));
    assert!(feed.is_complete());
}

#[test]
fn the_last_that_comes_from_refused_columns_is_the_refusal() {
    let levels = levels(&[(4, 4)]);
    let mut feed = started();
    let columns = (0..COLS + 2).map(|number| column(&levels, number.min(COLS - 1)));
    let mut spots = feed.spots(columns);
    assert!(spots.next().unwrap().is_ok());
    assert_eq!(spots.next(), Some(Err(Refusal::Past)));
    assert_eq!(spots.next(), None);
}

#[test]
fn a_feed_says_how_far_it_is() {
    let levels = levels(&[]);
    let mut feed = started();
    assert_eq!((feed.rows(), feed.cols(), feed.octave()), (ROWS, COLS, 0));
    for number in 0..COLS {
        assert_eq!(feed.position(), number);
        assert!(!feed.is_complete());
        feed.push(column(&levels, number)).unwrap();
        let judged = (number + 1).saturating_sub(2).clamp(4, COLS - 4);
        assert_eq!(feed.judged(), 4..judged);
    }
    assert!(feed.is_complete());
    assert_eq!(feed.judged(), 4..8);
    assert_eq!(feed.push(column(&levels, 0)), Err(Refusal::Past));
    assert_eq!(feed.push([&[]; 4]), Err(Refusal::Past));
}

#[test]
fn a_narrow_map_judges_no_column() {
    for cols in 0..9 {
        let mut feed = Feed::start(&set_t(), THRESHOLDS, ROWS, cols, 0).unwrap();
        for _ in 0..cols {
            assert_eq!(feed.push([&[0.0; ROWS]; 4]), Ok(Vec::new()));
        }
        assert!(feed.is_complete());
        assert_eq!(feed.judged(), 4..4);
        assert_eq!(feed.push([&[0.0; ROWS]; 4]), Err(Refusal::Past));
    }
}

#[test]
fn a_column_without_room_is_given_again() {
    let levels = levels(&[(4, 4)]);
    let mut feed = started();
    for number in 0..COLS {
        let given = column(&levels, number);
        if number == 6 {
            let before = *feed.state();
            for room in [0, SPOT_BYTES - 1] {
                let mut out = vec![0xa5; room];
                assert_eq!(feed.column(given, &mut out), Err(Refusal::Room));
                assert!(out.iter().all(|&byte| byte == 0xa5));
                assert_eq!(*feed.state(), before);
            }
            let mut out = [0xa5; SPOT_BYTES + 1];
            assert_eq!(feed.column(given, &mut out), Ok(1));
            assert_eq!(out[SPOT_BYTES], 0xa5);
            let listed = Spot::from_record(out[..SPOT_BYTES].try_into().unwrap());
            assert_eq!(vec![listed], detected(&levels));
        } else {
            // a column without spots needs no room
            assert_eq!(feed.column(given, &mut []), Ok(0));
        }
    }
}

#[test]
fn a_column_of_another_length_is_refused_and_given_again() {
    let levels = levels(&[(4, 4)]);
    let mut feed = started();
    let mut found = 0;
    for number in 0..COLS {
        let mut wrong = column(&levels, number);
        wrong[number % 4] = &[0.0; ROWS + 1];
        assert_eq!(feed.push(wrong), Err(Refusal::Level));
        wrong[number % 4] = &[0.0; ROWS - 1];
        assert_eq!(feed.push(wrong), Err(Refusal::Level));
        found += feed.push(column(&levels, number)).unwrap().len();
    }
    assert_eq!(found, 1);
}

#[test]
fn two_feeds_in_turn_are_apart() {
    let (one, other) = (levels(&[(4, 4)]), levels(&[(4, 6), (4, 7)]));
    let (mut first, mut second) = (started(), started());
    let (mut by_first, mut by_second) = (Vec::new(), Vec::new());
    for number in 0..COLS {
        by_first.extend(first.push(column(&one, number)).unwrap());
        by_second.extend(second.push(column(&other, number)).unwrap());
    }
    assert_eq!(by_first, detected(&one));
    assert_eq!(by_second, detected(&other));
}

#[test]
fn a_start_refuses_in_its_order() {
    let (good, bad) = (set_t(), vec![0; 527]);
    let nan = Thresholds {
        ratio: f32::NAN,
        ..THRESHOLDS
    };
    let which = Refusal::Thresholds {
        nan: [false, false, true, false, false],
    };
    let started = |set: &[u8], thresholds, rows, octave| {
        Feed::start(set, thresholds, rows, COLS, octave).map(|feed| feed.position())
    };
    assert_eq!(started(&bad, nan, 4097, 6), Err(Refusal::Size));
    assert_eq!(started(&bad, nan, usize::MAX, 6), Err(Refusal::Size));
    assert_eq!(started(&bad, nan, ROWS, 6), Err(Refusal::Octave));
    assert_eq!(started(&bad, nan, ROWS, 5), Err(which));
    assert_eq!(started(&bad, THRESHOLDS, ROWS, 5), Err(Refusal::Set));
    assert_eq!(started(&good, THRESHOLDS, 4096, 5), Ok(0));
    let wide = Feed::start(&good, THRESHOLDS, ROWS, 4097, 0);
    assert_eq!(wide.map(|feed| feed.position()), Err(Refusal::Size));
}

/// A start on lent room of these lengths: its answer, and whether it wrote.
fn lent(ring: [usize; 4], state: usize) -> (Result<(), Refusal>, bool) {
    let ring = ring.map(|length| vec![0.5; length]);
    let mut state = vec![0xa5; state];
    let slices = ring.each_ref().map(Vec::as_slice);
    let answer = uramsheg::feed_start(&set_t(), THRESHOLDS, ROWS, COLS, 3, slices, &mut state);
    (answer, state.iter().any(|&byte| byte != 0xa5))
}

#[test]
fn a_start_on_short_room_writes_nothing() {
    let enough = RING_COLUMNS * ROWS;
    assert_eq!(lent([enough; 4], FEED_BYTES), (Ok(()), true));
    assert_eq!(lent([enough + 3; 4], FEED_BYTES + 3), (Ok(()), true));
    assert_eq!(
        lent([enough; 4], FEED_BYTES - 1),
        (Err(Refusal::Room), false)
    );
    for short in 0..4 {
        let mut ring = [enough; 4];
        ring[short] -= 1;
        assert_eq!(lent(ring, FEED_BYTES), (Err(Refusal::Room), false));
    }
}

#[test]
fn a_state_is_laid_out_as_the_header_says() {
    let ring = [0; 4].map(|_| vec![0.0f32; RING_COLUMNS * ROWS]);
    let mut state = vec![0xa5; FEED_BYTES + 2];
    let slices = ring.each_ref().map(Vec::as_slice);
    uramsheg::feed_start(&set_t(), THRESHOLDS, ROWS, COLS, 3, slices, &mut state).unwrap();
    let mut due = set_t();
    for threshold in [1.0, 1.0, 10.0, 1.9027314, 4.1498866f32] {
        due.extend(threshold.to_le_bytes());
    }
    for number in [ROWS as u32, COLS as u32, 0, 3] {
        due.extend(number.to_le_bytes());
    }
    due.extend([0xa5; 2]);
    assert_eq!(state, due);
}

#[test]
fn forged_states_and_short_rings_are_refused_and_nothing_is_written() {
    let enough = RING_COLUMNS * ROWS;
    let refused = |forge: &dyn Fn(&mut Vec<u8>), rows: usize, ring: usize| {
        let mut feed = started();
        let mut state = feed.state().to_vec();
        forge(&mut state);
        let before = state.clone();
        let mut slices = [0; 4].map(|_| vec![0.5f32; ring]);
        let lent = slices.each_mut().map(Vec::as_mut_slice);
        let mut out = [0xa5; 100];
        let given = vec![1.0f32; rows];
        let answer = uramsheg::feed_column(&mut state, [&given; 4], lent, &mut out);
        if answer.is_err() {
            assert_eq!(state, before);
            assert!(slices.iter().flatten().all(|&pixel| pixel == 0.5));
            assert_eq!(out, [0xa5; 100]);
        }
        feed.push([&[0.0; ROWS]; 4]).unwrap();
        answer
    };
    let put = |at: usize, number: u32| {
        move |state: &mut Vec<u8>| state[at..at + 4].copy_from_slice(&number.to_le_bytes())
    };
    assert_eq!(refused(&|_| (), ROWS, enough), Ok(0));
    assert_eq!(refused(&|_| (), ROWS, enough - 1), Err(Refusal::Room));
    assert_eq!(refused(&|_| (), ROWS + 1, enough - 1), Err(Refusal::Level));
    assert_eq!(refused(&put(548, 4097), ROWS, enough), Err(Refusal::Past));
    assert_eq!(refused(&put(552, 4097), ROWS, enough), Err(Refusal::Past));
    assert_eq!(refused(&put(556, 12), ROWS, enough), Err(Refusal::Past));
    assert_eq!(
        refused(&put(556, u32::MAX), ROWS + 1, 0),
        Err(Refusal::Past)
    );
    assert_eq!(refused(&put(556, 11), ROWS, enough), Ok(0));
    assert_eq!(
        refused(&|state| state.truncate(563), ROWS, enough),
        Err(Refusal::Past)
    );
    assert_eq!(
        refused(&|state| state.clear(), ROWS, enough),
        Err(Refusal::Past)
    );
    assert_eq!(refused(&|state| state.resize(600, 7), ROWS, enough), Ok(0));
}

#[test]
fn past_says_what_to_do() {
    assert_eq!(Refusal::from_number(9, 0), Some(Refusal::Past));
    assert!(Refusal::Past.to_string().contains("start another feed"));
}
