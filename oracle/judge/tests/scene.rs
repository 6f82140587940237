//! Document 02's No. 7 from the judge: where tiles begin, a scene's refusals in their order, and what a call leaves.

use judge::scene::{CUT, Call, Cut, RECORD, scene, untiled_sized};
use judge::{Map, SIZED, Set};

const ROWS: usize = 9;
const COLS: usize = 4100;
const THRESHOLDS: [f32; 5] = [1.0, 1.0, 10.0, 1.9027314, 4.1498866];

/// Levels of 9 rows with map M's spot in row 4 of these cols.
fn levels(cols: &[usize]) -> [Vec<f32>; 4] {
    let mut four = core::array::from_fn(|_| vec![0.0; ROWS * COLS]);
    for col in cols {
        four[0][col * ROWS + 4] = 0.25;
        four[1][col * ROWS + 4] = -0.25;
    }
    four
}

fn map(levels: &[Vec<f32>; 4]) -> Map<'_> {
    Map {
        thresholds: THRESHOLDS.into(),
        rows: ROWS,
        cols: COLS,
        octave: 0,
        levels: levels.each_ref().map(Vec::as_slice),
    }
}

/// A call's answer with what it left in the first slice and in the output.
fn called(
    record: &[u8],
    map: Map,
    slices: [usize; 4],
    room: usize,
) -> ((u32, u64), Vec<f32>, Vec<u8>) {
    let mut slices = slices.map(|length| vec![7.5; length]);
    let mut out = vec![0xa5; room];
    let answer = scene(
        CUT,
        Call {
            record,
            map,
            slices: slices.each_mut().map(Vec::as_mut_slice),
            out: &mut out,
        },
    );
    let [first, ..] = slices;
    (answer, first, out)
}

#[test]
fn every_judged_pixel_is_in_one_tile() {
    for side in 0..=16_384usize {
        let tiles: Vec<_> = CUT.along(side).collect();
        assert_eq!(tiles.len(), 1 + side.saturating_sub(9) / 4088);
        let mut next = 4;
        for (number, tile) in tiles.iter().enumerate() {
            assert_eq!(tile.start, 4088 * number);
            assert!(number == 0 || tile.len() >= 9);
            if side > 8 {
                assert_eq!(tile.start + 4, next);
                next = tile.end - 4;
            }
        }
        assert!(side < 9 || next == side - 4);
    }
}

#[test]
fn tiles_go_row_by_row() {
    let numbers = |rows, cols| -> Vec<(usize, usize)> {
        let tiles = CUT.tiles(rows, cols);
        tiles.iter().map(|tile| (tile.row, tile.col)).collect()
    };
    assert_eq!(
        numbers(4097, 8185),
        [(0, 0), (0, 1), (0, 2), (1, 0), (1, 1), (1, 2)]
    );
    assert_eq!(numbers(0, 0), [(0, 0)]);
    assert_eq!(Cut::of(4088), CUT);
}

#[test]
fn a_scene_refuses_in_its_order_and_writes_nothing() {
    let good = Set::t().to_record();
    let sound = levels(&[6]);
    let mut all = map(&sound);
    let (rows, level) = (all.rows, all.levels[3]);
    (all.rows, all.octave, all.thresholds.ratio) = (16_385, 6, f32::NAN);
    all.levels[3] = &level[1..];
    let short = [ROWS * 4096, ROWS * 4096, ROWS * 4096 - 1, ROWS * 4096];
    let refused = |record: &[u8], map: Map| {
        let (answer, slice, out) = called(record, map, short, 100);
        assert!(slice.iter().all(|&pixel| pixel == 7.5));
        assert!(out.iter().all(|&byte| byte == 0xa5));
        answer
    };
    assert_eq!(refused(&good[..527], all), (10, 0));
    all.rows = rows;
    assert_eq!(refused(&good[..527], all), (2, 0));
    all.levels[3] = level;
    assert_eq!(refused(&good[..527], all), (3, 0));
    all.octave = 5;
    assert_eq!(refused(&good[..527], all), (8, 0));
    all.thresholds.ratio = 10.0;
    assert_eq!(refused(&good[..527], all), (4, 0));
    assert_eq!(refused(&good, all), (6, 0));
    assert_eq!(called(&good, all, [ROWS * 4096; 4], RECORD).0, (0, 1));
}

/// Map M's spot in row 4 as a tile lists it: the tile's numbers, then its sized record with this x, key and home col.
fn record_of_m(numbers: [u8; 4], x: f32, key: u32, home: u16) -> Vec<u8> {
    let mut list = vec![];
    for value in [x, 4.0, 2.0, 4.0, -1.0, 4.0, 0.0, 0.0f32] {
        list.extend(value.to_le_bytes());
    }
    list.extend(key.to_le_bytes());
    list.extend([0, 1, 1, 0]);
    list.extend([0.5f32, 0.0].map(f32::to_le_bytes).concat());
    let mut sized = vec![0; SIZED];
    judge::join(judge::Logs::Steps, &Set::t(), ROWS, 4096, &list, &mut sized);
    assert_eq!(sized[52..56], [4, 0, home as u8, (home >> 8) as u8]);
    [&numbers[..], &sized].concat()
}

#[test]
fn tiles_are_written_whole_or_not_at_all() {
    let levels = levels(&[4000, 4094]);
    let sound = map(&levels);
    let set = Set::t().to_record();
    let first = record_of_m([0; 4], 4000.5, 4 * 4096 + 4000, 4001);
    let second = record_of_m([0, 0, 1, 0], 6.5, 4 * 12 + 6, 7);
    for (room, answer, whole) in [
        (0, (6, 0), vec![]),
        (RECORD - 1, (6, 0), vec![]),
        (RECORD, (6, 1), first.clone()),
        (2 * RECORD - 1, (6, 1), first.clone()),
        (2 * RECORD, (0, 2), [&first[..], &second].concat()),
        (2 * RECORD + 3, (0, 2), [&first[..], &second].concat()),
    ] {
        let (given, slice, out) = called(&set, sound, [ROWS * 4096 + 2; 4], room);
        assert_eq!(given, answer, "{room} bytes");
        assert_eq!(out[..whole.len()], whole[..]);
        assert!(out[whole.len()..].iter().all(|&byte| byte == 0xa5));
        // the last copy, of 12 cols, stands before what the first left
        let last = if answer.1 == 0 && answer.0 == 6 {
            0
        } else {
            4088 * ROWS
        };
        let twelve = ROWS * (COLS - 4088);
        assert_eq!(slice[..twelve], levels[0][last..last + twelve]);
        assert_eq!(slice[twelve..ROWS * 4096], levels[0][twelve..ROWS * 4096]);
        assert_eq!(slice[ROWS * 4096..], [7.5, 7.5]);
    }
}

#[test]
fn a_home_is_the_tiles_own() {
    let mut set = Set::t();
    for block in [0, 45] {
        set.spatial[block + 27 + 4] = 0.499_99 / 2.0;
    }
    let levels = levels(&[4092]);
    let sound = map(&levels);
    let (answer, _, out) = called(&set.to_record(), sound, [ROWS * 4096; 4], RECORD);
    assert_eq!((answer, &out[..4]), ((0, 1), &[0, 0, 1, 0][..]));
    assert_eq!(out[4..8], (4.0f32 + 0.499_99).to_le_bytes());
    assert_eq!(out[56..60], [4, 0, 4, 0], "the scene's (4,4092)");
    let untiled = untiled_sized(&set, sound);
    assert_eq!(untiled[0][..4], 4092.5f32.to_le_bytes());
    assert_eq!(untiled[0][54..56], 4093u16.to_le_bytes());
    let moved = [0.499_99f32, 0.0].map(f32::to_le_bytes).concat();
    assert_eq!(
        (&out[44..52], &untiled[0][40..48]),
        (&moved[..], &moved[..])
    );
}
