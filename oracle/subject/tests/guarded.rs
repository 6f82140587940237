//! A byte out of bounds of a lent buffer ends the program; every byte within is there.
#![cfg(feature = "archive")]

use std::process::Command;
use subject::guarded::{Room, Side};

/// The name by which the test starts itself again to read one byte out of bounds.
const OUTSIDE: &str = "URAMSHEG_OUTSIDE";

/// The byte beside the lent one, on the page's side.
fn read_outside(side: Side, length: usize) -> u8 {
    let mut room = Room::default();
    let lent = room.lend(side, &vec![7u8; length]).as_ptr_range();
    let outside = match side {
        Side::Before => lent.start.wrapping_sub(1),
        Side::Behind => lent.end,
    };
    // SAFETY: none; the program is to end here.
    unsafe { outside.read_volatile() }
}

#[test]
fn a_byte_out_of_bounds_ends_the_program() {
    let sides = [Side::Before, Side::Behind];
    let lengths = [0, 1, 39, 528, 65_536, 65_537];
    if let Ok(place) = std::env::var(OUTSIDE) {
        let place: usize = place.parse().unwrap();
        println!(
            "read {}",
            read_outside(sides[place % 2], lengths[place / 2])
        );
        return;
    }
    for place in 0..sides.len() * lengths.len() {
        let program = std::env::current_exe().unwrap();
        let ended = Command::new(program)
            .env(OUTSIDE, place.to_string())
            .output()
            .unwrap();
        assert_eq!(
            ended.status.code(),
            None,
            "case {place} read a byte out of bounds"
        );
    }
}

#[test]
fn what_is_lent_is_a_whole_aligned_copy() {
    let mut room = Room::default();
    for length in [0, 1, 2, 132, 16_383, 16_384, 16_385, 3] {
        let values: Vec<f32> = (0..length).map(|value| value as f32).collect();
        for side in [Side::Before, Side::Behind] {
            let lent = room.lend(side, &values);
            assert!(lent.as_ptr().is_aligned());
            assert_eq!(lent, values);
            lent.fill(1.0);
        }
    }
}
