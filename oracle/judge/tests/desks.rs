//! Document 02's No. 9 from the judge: where a table's parts stand, the refusals of each call in their order, what a call leaves, and what a run finds.

use judge::desks::{Call, RECORD, SLOTS, Slot, TABLE, called, read, run, write_back};
use judge::{Answer, Map, Pass, Rules, Set};

const THRESHOLDS: [f32; 5] = [1.0, 1.0, 10.0, 1.9027314, 4.1498866];
const RECORD_OF_M: &str = "00009040000080400000004000008040000080bf0000804000000000000000002c000000000101000000003f00000000";

/// Document 01's map M.
fn levels_of_m() -> [Vec<f32>; 4] {
    let mut four = core::array::from_fn(|_| vec![0.0; 90]);
    (four[0][40], four[1][40]) = (0.25, -0.25);
    four
}

fn map(levels: &[Vec<f32>; 4]) -> Map<'_> {
    Map {
        thresholds: THRESHOLDS.into(),
        rows: 9,
        cols: 10,
        octave: 0,
        levels: levels.each_ref().map(Vec::as_slice),
    }
}

/// A run's answer, with what it left in 49 bytes.
fn listed(table: &[u8], slot: usize, map: Map) -> (Answer, Vec<u8>) {
    let mut out = vec![0xa5; 49];
    let answer = run(Rules::Document, Pass::Reference, table, slot, map, &mut out);
    (answer, out)
}

fn refused(number: u32) -> (Answer, Vec<u8>) {
    (Answer::Refused { number, index: 0 }, vec![0xa5; 49])
}

/// A table with one owner and one count at every slot, each record a byte of its own.
fn table(owner: u8, count: u32) -> Vec<u8> {
    let slots: [Slot; SLOTS] = core::array::from_fn(|slot| Slot {
        set: [slot as u8 + 1; RECORD],
        owner,
        count,
    });
    let mut table = vec![0; TABLE];
    write_back(&slots, &mut table);
    table
}

#[test]
fn the_parts_of_a_table() {
    let bytes: Vec<u8> = (0..TABLE).map(|place| (place * 7 / 3) as u8).collect();
    let slots = read(&bytes).unwrap();
    let mut again = vec![0; TABLE];
    write_back(&slots, &mut again);
    assert_eq!(again, bytes);
    let mut table = vec![0; TABLE];
    table[528 * 3 + 527] = 9;
    table[4224 + 3] = 2;
    table[4232 + 4 * 3..][..4].copy_from_slice(&[4, 3, 2, 1]);
    let Slot { set, owner, count } = read(&table).unwrap()[3];
    assert_eq!((set[527], owner, count), (9, 2, 0x0102_0304));
    assert!(read(&table[1..]).is_none());
    assert!(read(&[&table[..], &[0]].concat()).is_none());
}

#[test]
fn a_desks_calls_refuse_in_their_order_and_change_nothing() {
    let good = Set::t().to_record();
    for desk in [1, 2] {
        let calls = [
            (Call::Claim, 0, [11, 12, 0]),
            (Call::Write(&good[..527]), desk, [11, 12, 4]),
            (Call::Write(&good), desk, [11, 12, 0]),
            (Call::Release, desk, [11, 0, 0]),
        ];
        for (call, due, [none, full, sound]) in calls {
            for owner in 0..=255 {
                for (count, number) in [(u32::MAX, full), (u32::MAX - 1, sound), (0, sound)] {
                    let number = if owner == due { number } else { none };
                    let before = table(owner as u8, count);
                    let mut after = before.clone();
                    assert_eq!(
                        called(&mut after, desk, 7, call),
                        number,
                        "{call:?} {owner}"
                    );
                    assert_eq!(after == before, number != 0);
                }
            }
            let owned = table(due as u8, 5);
            for (desk, slot, length) in [
                (0, 7, TABLE),
                (3, 7, TABLE),
                (256 + desk, 7, TABLE),
                (usize::MAX, 7, TABLE),
                (desk, 8, TABLE),
                (desk, 263, TABLE),
                (desk, usize::MAX, TABLE),
                (desk, 7, TABLE - 1),
                (desk, 7, TABLE + 1),
                (desk, 7, 0),
            ] {
                let mut lent = owned.clone();
                lent.resize(length, 0x77);
                let before = lent.clone();
                assert_eq!(called(&mut lent, desk, slot, call), 11);
                assert_eq!(lent, before);
            }
        }
    }
    // No desk is 0, though a free slot's owner is.
    let mut free = table(0, 5);
    assert_eq!(called(&mut free, 0, 1, Call::Write(&good)), 11);
    assert_eq!(called(&mut free, 0, 1, Call::Release), 11);
    let mut third = table(3, 5);
    assert_eq!(called(&mut third, 3, 1, Call::Write(&good)), 11);
}

#[test]
fn what_a_call_leaves() {
    let good = Set::t().to_record();
    let mut now = table(0, 255);
    let mut due = read(&now).unwrap();
    assert_eq!(called(&mut now, 2, 5, Call::Claim), 0);
    due[5] = Slot {
        set: [0; RECORD],
        owner: 2,
        count: 256,
    };
    assert_eq!(read(&now).unwrap(), due);
    assert_eq!(called(&mut now, 2, 5, Call::Write(&good)), 0);
    due[5] = Slot {
        set: good,
        owner: 2,
        count: 257,
    };
    assert_eq!(read(&now).unwrap(), due);
    assert_eq!(called(&mut now, 1, 5, Call::Write(&good)), 11);
    assert_eq!(called(&mut now, 2, 5, Call::Release), 0);
    due[5].owner = 0;
    assert_eq!(read(&now).unwrap(), due);
    let mut last = table(1, u32::MAX - 1);
    assert_eq!(called(&mut last, 1, 0, Call::Write(&good)), 0);
    assert_eq!(called(&mut last, 1, 0, Call::Write(&good)), 12);
    assert_eq!(called(&mut last, 1, 0, Call::Release), 0);
    assert_eq!(called(&mut last, 1, 0, Call::Claim), 12);
    let Slot { set, owner, count } = read(&last).unwrap()[0];
    assert_eq!((set, owner, count), (good, 0, u32::MAX));
}

#[test]
fn a_run_finds_its_slots_set() {
    let levels = levels_of_m();
    let mut table = vec![0; TABLE];
    let good = Set::t().to_record();
    assert_eq!(listed(&table, 3, map(&levels)), refused(11));
    assert_eq!(called(&mut table, 1, 3, Call::Claim), 0);
    assert_eq!(listed(&table, 3, map(&levels)), refused(4));
    assert_eq!(called(&mut table, 1, 3, Call::Write(&good)), 0);
    let (answer, out) = listed(&table, 3, map(&levels));
    let hex: String = out.iter().map(|byte| format!("{byte:02x}")).collect();
    assert_eq!((answer, hex), (Answer::Done(1), format!("{RECORD_OF_M}a5")));
    // A spare byte of the record, and owners that are no desk's.
    table[528 * 3 + 527] = 1;
    assert_eq!(listed(&table, 3, map(&levels)), refused(4));
    table[528 * 3 + 527] = 0;
    for owner in 0..=255 {
        table[4224 + 3] = owner;
        let answer = listed(&table, 3, map(&levels));
        assert_eq!(answer != refused(11), owner == 1 || owner == 2);
    }
}

#[test]
fn a_run_refuses_in_its_order() {
    let levels = levels_of_m();
    let mut all = map(&levels);
    let (rows, level) = (all.rows, all.levels[3]);
    (all.rows, all.octave, all.thresholds.high) = (4097, 6, f32::NAN);
    all.levels[3] = &level[1..];
    let mut table = vec![0; TABLE];
    assert_eq!(listed(&table, 8, all), refused(11));
    assert_eq!(listed(&table[1..], 7, all), refused(11));
    assert_eq!(listed(&table, 7, all), refused(11));
    assert_eq!(called(&mut table, 2, 7, Call::Claim), 0);
    assert_eq!(listed(&table, usize::MAX, all), refused(11));
    assert_eq!(listed(&table, 7, all), refused(1));
    all.rows = rows;
    assert_eq!(listed(&table, 7, all), refused(2));
    all.levels[3] = level;
    assert_eq!(listed(&table, 7, all), refused(3));
    all.octave = 5;
    assert_eq!(listed(&table, 7, all), refused(8));
    all.thresholds.high = 4.1498866;
    assert_eq!(listed(&table, 7, all), refused(4));
}
