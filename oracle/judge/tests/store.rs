//! Document 02's No. 10 from the judge: what a free slot is, the refusals of each call in their order, and what a call leaves.

use judge::Answer::{self, Done};
use judge::SPOT;
use judge::store::{add, clear, close_up, strike};

const M: &str = "00009040000080400000004000008040000080bf0000804000000000000000002c000000000101000000003f00000000";
const ROWS: usize = 9;
const COLS: usize = 10;

fn refused(number: u32, index: usize) -> Answer {
    Answer::Refused { number, index }
}

/// The record of document 01's map M, with a peak of its own.
fn spot(peak: u8) -> Vec<u8> {
    let byte = |k: usize| u8::from_str_radix(&M[2 * k..2 * k + 2], 16).unwrap();
    let mut record: Vec<u8> = (0..SPOT).map(byte).collect();
    record[12] = peak;
    record
}

fn free() -> Vec<u8> {
    let mut slot = vec![0; 48];
    slot[38] = 255;
    slot
}

/// A store of spots with these peaks, 0 for a free slot.
fn store(peaks: &[u8]) -> Vec<u8> {
    let slot = |&peak: &u8| if peak == 0 { free() } else { spot(peak) };
    peaks.iter().flat_map(slot).collect()
}

/// A call's answer, and whether it left the store as it was.
fn asked(store: &[u8], call: impl FnOnce(&mut [u8]) -> Answer) -> (Answer, bool) {
    let mut left = store.to_vec();
    (call(&mut left), left == store)
}

#[test]
fn what_a_call_leaves() {
    let mut now = vec![0xa5; 5 * 48];
    assert_eq!((clear(&mut now), &now), (Done(0), &store(&[0; 5])));
    for peak in [1, 2, 3] {
        let answer = add(&mut now, ROWS, COLS, &spot(peak));
        assert_eq!(answer, Done(usize::from(peak) - 1));
    }
    assert_eq!(now, store(&[1, 2, 3, 0, 0]));
    assert_eq!(strike(&mut now, ROWS, COLS, 1), Done(0));
    assert_eq!(now, store(&[1, 0, 3, 0, 0]));
    assert_eq!(add(&mut now, ROWS, COLS, &spot(4)), Done(1));
    assert_eq!(add(&mut now, ROWS, COLS, &spot(5)), Done(3));
    assert_eq!(strike(&mut now, ROWS, COLS, 0), Done(0));
    assert_eq!(now, store(&[0, 4, 3, 5, 0]));
    for _ in 0..2 {
        assert_eq!(close_up(&mut now, ROWS, COLS), Done(3));
        assert_eq!(now, store(&[4, 3, 5, 0, 0]));
    }
}

#[test]
fn a_store_of_no_slots() {
    let refusals = [
        (add(&mut [], ROWS, COLS, &spot(1)), refused(6, 0)),
        (add(&mut [], ROWS, COLS, &free()), refused(5, 0)),
        (strike(&mut [], ROWS, COLS, 0), refused(13, 0)),
    ];
    for (given, due) in refusals {
        assert_eq!(given, due);
    }
    assert_eq!(clear(&mut []), Done(0));
    assert_eq!(close_up(&mut [], ROWS, COLS), Done(0));
}

/// What the calls but clearing answer of a store: adding a spot, striking slot 0, closing up.
fn three(store: &[u8], rows: usize, cols: usize) -> [(Answer, bool); 3] {
    [
        asked(store, |store| add(store, rows, cols, &spot(9))),
        asked(store, |store| strike(store, rows, cols, 0)),
        asked(store, |store| close_up(store, rows, cols)),
    ]
}

#[test]
fn a_store_is_refused_in_its_order() {
    let mut damaged = store(&[1, 0, 3, 0]);
    damaged[2 * 48 + 37] = 3;
    damaged[3 * 48 + 47] = 1;
    let cut = damaged[..4 * 48 - 1].to_vec();
    for (rows, cols) in [(4097, COLS), (ROWS, usize::MAX)] {
        assert_eq!(three(&cut, rows, cols), [(refused(1, 0), true); 3]);
    }
    assert_eq!(three(&cut, ROWS, COLS), [(refused(5, 3), true); 3]);
    assert_eq!(three(&damaged, ROWS, COLS), [(refused(5, 2), true); 3]);
    damaged[2 * 48 + 37] = 2;
    assert_eq!(three(&damaged, ROWS, COLS), [(refused(5, 3), true); 3]);
    // clearing asks for whole slots alone
    assert_eq!(asked(&cut, clear), (refused(5, 3), true));
    assert_eq!(asked(&damaged, clear), (Done(0), false));
}

#[test]
fn a_free_slot_is_zeros_and_its_mark() {
    for place in 0..48 {
        for value in 0..=255 {
            let mut now = store(&[1, 0]);
            now[48 + place] = value;
            let sound = now[48..] == free();
            let answer = close_up(&mut now, ROWS, COLS);
            assert_eq!(answer == Done(1), sound, "{place} {value}");
            assert_eq!(answer == refused(5, 1), !sound);
        }
    }
}

#[test]
fn sides_decide_which_records_are_readable() {
    // x is 4.5 and y 4; the key is 44
    for (rows, cols, taken) in [
        (9, 10, true),
        (5, 9, true),
        (4, 12, false),
        (9, 5, false),
        (5, 8, false),
        (0, 10, false),
        (10, 0, false),
    ] {
        let answer = if taken { Done(1) } else { refused(5, 0) };
        assert_eq!(close_up(&mut store(&[1]), rows, cols), answer);
        let added = if taken { Done(0) } else { refused(5, 1) };
        assert_eq!(add(&mut store(&[0]), rows, cols, &spot(1)), added);
        assert_eq!(close_up(&mut store(&[0]), rows, cols), Done(0));
    }
}

#[test]
fn adding_is_refused_for_the_spot_and_then_for_the_room() {
    let full = store(&[1, 2, 3]);
    let long = [spot(1), spot(2)].concat();
    for bad in [&[][..], &spot(1)[..47], &long[..49], &long, &free()] {
        for store in [&full, &store(&[0, 2, 0])] {
            let given = asked(store, |store| add(store, ROWS, COLS, bad));
            assert_eq!(given, (refused(5, 3), true));
        }
    }
    let given = asked(&full, |store| add(store, ROWS, COLS, &spot(4)));
    assert_eq!(given, (refused(6, 0), true));
}

#[test]
fn striking_asks_for_a_spot() {
    let now = store(&[1, 0, 3]);
    for slot in [1, 3, 4, 1 << 32, usize::MAX] {
        let given = asked(&now, |store| strike(store, ROWS, COLS, slot));
        assert_eq!(given, (refused(13, 0), true));
    }
    for slot in [0, 2] {
        let given = asked(&now, |store| strike(store, ROWS, COLS, slot));
        assert_eq!(given, (Done(0), false));
    }
}
