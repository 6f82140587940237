//! Document 02's No. 6 from the judge: a feed's refusals in their order, when a column is judged, and what a call leaves.

use judge::Set;
use judge::feed::{Call, RING, STATE, Start, column, start};

const ROWS: usize = 9;
const COLS: usize = 10;
const THRESHOLDS: [f32; 5] = [1.0, 1.0, 10.0, 1.9027314, 4.1498866];
const RECORD_OF_M: &str = "00009040000080400000004000008040000080bf0000804000000000000000002c000000000101000000003f00000000";

fn sound(record: &[u8]) -> Start<'_> {
    Start {
        record,
        thresholds: THRESHOLDS,
        rows: ROWS,
        cols: COLS,
        octave: 0,
        ring: [RING * ROWS; 4],
    }
}

/// A start's answer, and whether it wrote.
fn started(given: Start, room: usize) -> (u32, bool) {
    let mut state = vec![0xa5; room];
    let number = start(&given, &mut state);
    (number, state.iter().any(|&byte| byte != 0xa5))
}

#[test]
fn a_start_refuses_in_its_order_and_writes_nothing() {
    let good = Set::t().to_record();
    let mut all = sound(&good[..527]);
    (all.rows, all.octave, all.thresholds[2], all.ring[3]) = (4097, 6, f32::NAN, 44);
    assert_eq!(started(all, 563), (1, false));
    all.rows = ROWS;
    assert_eq!(started(all, 563), (3, false));
    all.octave = 5;
    assert_eq!(started(all, 563), (8, false));
    all.thresholds = THRESHOLDS;
    assert_eq!(started(all, 563), (4, false));
    all.record = &good;
    assert_eq!(started(all, 563), (6, false));
    assert_eq!(started(all, 564), (6, false));
    all.ring[3] = 45;
    assert_eq!(started(all, 563), (6, false));
    assert_eq!(started(all, 564), (0, true));
    all.cols = 4097;
    assert_eq!(started(all, 564), (1, false));
}

/// A feed of map M: its state, its ring, and one column of four.
struct Feed {
    state: Vec<u8>,
    ring: [Vec<f32>; 4],
}

impl Feed {
    fn new() -> Feed {
        let mut state = vec![0xa5; STATE + 1];
        assert_eq!(start(&sound(&Set::t().to_record()), &mut state), 0);
        let ring = core::array::from_fn(|_| vec![7.5; RING * ROWS + 1]);
        Feed { state, ring }
    }

    fn give(&mut self, columns: &[Vec<f32>; 4], out: &mut [u8]) -> (u32, u64) {
        column(Call {
            state: &mut self.state,
            columns: columns.each_ref().map(Vec::as_slice),
            ring: self.ring.each_mut().map(Vec::as_mut_slice),
            out,
        })
    }
}

/// Map M's column of a number.
fn column_of_m(number: usize) -> [Vec<f32>; 4] {
    let mut four = core::array::from_fn(|_| vec![0.0; ROWS]);
    if number == 4 {
        four[0][4] = 0.25;
        four[1][4] = -0.25;
    }
    four
}

#[test]
fn map_ms_record_comes_with_the_column_two_further() {
    let mut feed = Feed::new();
    for number in 0..COLS {
        let mut out = vec![0xa5; 97];
        let answer = feed.give(&column_of_m(number), &mut out);
        let found = usize::from(number == 6);
        assert_eq!(answer, (0, found as u64));
        let listed: String = out.iter().map(|byte| format!("{byte:02x}")).collect();
        let due = RECORD_OF_M.repeat(found) + &"a5".repeat(97 - 48 * found);
        assert_eq!(listed, due);
        assert_eq!(feed.state[556..560], (number as u32 + 1).to_le_bytes());
        assert_eq!(feed.state[STATE], 0xa5);
        let first = number % RING * ROWS;
        let given = column_of_m(number);
        assert!((0..4).all(|level| feed.ring[level][first..first + ROWS] == given[level]));
        assert!((0..4).all(|level| feed.ring[level][RING * ROWS] == 7.5));
    }
    assert_eq!(feed.give(&column_of_m(0), &mut []), (9, 0));
}

#[test]
fn a_column_refuses_in_its_order_and_changes_nothing() {
    let mut feed = Feed::new();
    for number in 0..6 {
        feed.give(&column_of_m(number), &mut []);
    }
    let mut wrong = column_of_m(6);
    wrong[3].push(0.0);
    let (state, ring) = (feed.state.clone(), feed.ring.clone());
    let mut out = [0xa5; 47];
    assert_eq!(feed.give(&column_of_m(6), &mut out), (6, 0));
    assert_eq!(feed.give(&wrong, &mut out), (2, 0));
    feed.ring[2].truncate(RING * ROWS - 1);
    assert_eq!(feed.give(&wrong, &mut out), (2, 0));
    assert_eq!(feed.give(&column_of_m(6), &mut [0; 48]), (6, 0));
    feed.ring = ring.clone();
    feed.state[556] = 10;
    assert_eq!(feed.give(&wrong, &mut out), (9, 0));
    feed.state = state[..563].to_vec();
    assert_eq!(feed.give(&wrong, &mut out), (9, 0));
    feed.state = state.clone();
    feed.state[549] = 0x10;
    assert_eq!(feed.give(&wrong, &mut out), (9, 0), "rows are 4105");
    feed.state = state;
    assert_eq!((out, feed.ring.clone()), ([0xa5; 47], ring));
    assert_eq!(feed.give(&column_of_m(6), &mut [0; 48]), (0, 1));
}

#[test]
fn an_order_byte_that_names_no_sample_lists_nothing() {
    for (place, byte, found) in [(516, 9, 0), (524, 255, 0), (525, 1, 1), (560, 6, 0)] {
        let mut feed = Feed::new();
        feed.state[place] = byte;
        let listed: u64 = (0..COLS)
            .map(|number| feed.give(&column_of_m(number), &mut [0; 96]).1)
            .sum();
        assert_eq!(listed, found, "byte {place} is {byte}");
    }
}
