//! Whole scenes, request No. 7, through the archive.

mod common;

use common::set_t;
use uramsheg::{
    Map, Refusal, SCENE_BYTES, SCENE_LONGEST, SIZED_BYTES, SPOT_BYTES, SceneSpot, SizedSpot, Spot,
    TILE_LENGTH, TILE_STEP, Thresholds, scene, scene_spots, tile_count, tile_pixels,
};

const THRESHOLDS: Thresholds = Thresholds {
    peak: 1.0,
    sigma: 1.0,
    ratio: 10.0,
    low: 1.9027314,
    high: 4.1498866,
};

/// What stands in a tile slice, and in the output, before a call.
const KEPT: f32 = -7.25;
const BYTE: u8 = 0xa5;

/// A scene's sides and levels. The last two levels of a map of blobs are one of zeros.
struct Scene {
    rows: usize,
    cols: usize,
    levels: [Vec<f32>; 3],
}

impl Scene {
    /// Map M's blob at some pixels.
    fn of_blobs(rows: usize, cols: usize, blobs: &[(usize, usize)]) -> Scene {
        let mut levels = [0; 3].map(|_| vec![0.0; rows * cols]);
        for (row, col) in blobs {
            levels[0][col * rows + row] = 0.25;
            levels[1][col * rows + row] = -0.25;
        }
        Scene { rows, cols, levels }
    }

    fn map(&self) -> Map<'_> {
        let [first, second, zeros] = self.levels.each_ref().map(Vec::as_slice);
        Map {
            rows: self.rows,
            cols: self.cols,
            octave: 0,
            levels: [first, second, zeros, zeros],
        }
    }

    fn spots(&self) -> Vec<SceneSpot> {
        scene_spots(&set_t(), THRESHOLDS, self.map()).unwrap()
    }

    /// The one spot that it has.
    fn only_spot(&self) -> SceneSpot {
        let spots = self.spots();
        assert_eq!(spots.len(), 1);
        spots[0]
    }

    /// A call with the least tile slices and so much room.
    fn with_room(&self, room: usize) -> Left {
        let least = self.rows.min(TILE_LENGTH) * self.cols.min(TILE_LENGTH);
        call(&set_t(), THRESHOLDS, self.map(), [least; 4], room)
    }
}

/// What a call leaves.
struct Left {
    answer: Result<usize, Refusal>,
    tile: [Vec<f32>; 4],
    out: Vec<u8>,
}

impl Left {
    /// Whether nothing was written.
    fn is_untouched(&self) -> bool {
        self.tile.iter().flatten().all(|&float| float == KEPT)
            && self.out.iter().all(|&byte| byte == BYTE)
    }
}

/// A call with tile slices of these lengths and so much room.
fn call(
    set: &[u8],
    thresholds: Thresholds,
    map: Map<'_>,
    lengths: [usize; 4],
    room: usize,
) -> Left {
    let mut tile = lengths.map(|length| vec![KEPT; length]);
    let mut out = vec![BYTE; room];
    let lent = tile.each_mut().map(Vec::as_mut_slice);
    let answer = scene(set, thresholds, map, lent, &mut out);
    Left { answer, tile, out }
}

/// The pixels of a tile of a level, by the tile's own columns.
fn cut(level: &[f32], rows: usize, (row, col): (usize, usize)) -> Vec<f32> {
    let (down, across) = (tile_pixels(rows, row), tile_pixels(level.len() / rows, col));
    across
        .flat_map(|col| &level[col * rows..][down.clone()])
        .copied()
        .collect()
}

#[test]
fn a_side_has_as_many_tiles_as_it_needs() {
    for (side, tiles) in [
        (0, 1),
        (8, 1),
        (9, 1),
        (4_096, 1),
        (4_097, 2),
        (8_184, 2),
        (8_185, 3),
        (16_384, 5),
    ] {
        assert_eq!(tile_count(side), tiles, "a side of {side}");
    }
    assert_eq!(tile_pixels(0, 0), 0..0);
    assert_eq!(tile_pixels(4_097, 0), 0..4_096);
    assert_eq!(tile_pixels(4_097, 1), 4_088..4_097);
    assert_eq!(tile_pixels(SCENE_LONGEST, 4), 16_352..16_384);
    assert!(tile_pixels(9, usize::MAX).is_empty());
    assert!(tile_count(usize::MAX) > 4 && tile_pixels(usize::MAX, 1).len() == TILE_LENGTH);
}

#[test]
fn each_pixel_but_the_border_is_judged_in_one_tile() {
    for side in 0..=SCENE_LONGEST {
        let mut judged = 4;
        for tile in 0..tile_count(side) {
            let pixels = tile_pixels(side, tile);
            assert_eq!(pixels.start, TILE_STEP * tile);
            assert!(tile == 0 || pixels.len() >= 9, "a side of {side}");
            if pixels.len() > 8 {
                assert_eq!(pixels.start + 4, judged, "a side of {side}");
                judged = pixels.end - 4;
            }
        }
        assert_eq!(tile_pixels(side, tile_count(side) - 1).end, side);
        assert!(tile_pixels(side, tile_count(side)).is_empty());
        assert_eq!(judged, side.saturating_sub(4).max(4), "a side of {side}");
    }
}

#[test]
fn a_scene_of_one_tile_lists_its_maps_spots() {
    let scene = Scene::of_blobs(9, 12, &[(4, 4), (4, 7)]);
    let spots = scene.spots();
    let sized: Vec<SizedSpot> = spots.iter().map(|spot| spot.sized).collect();
    let due = uramsheg::sized_spots(&set_t(), THRESHOLDS, scene.map());
    assert_eq!(Ok(&sized), due.as_ref());
    assert_eq!(sized.len(), 2);
    assert!(spots.iter().all(|s| (s.tile_row, s.tile_col) == (0, 0)));
}

/// The bits of how far a spot moved.
fn moved(spot: &SceneSpot) -> [u32; 2] {
    [spot.sized.spot.dx, spot.sized.spot.dy].map(f32::to_bits)
}

/// The places near a seam, each with the number of the tile that judges it.
fn near_a_seam() -> impl Iterator<Item = (usize, u16)> {
    (4_084..4_100).map(|place| (place, u16::from(place > 4_091)))
}

#[test]
fn a_blob_near_a_seam_of_cols_is_listed_once() {
    for (col, tile) in near_a_seam() {
        let spot = Scene::of_blobs(9, 4_110, &[(4, col)]).only_spot();
        let own = col - TILE_STEP * usize::from(tile);
        let width = tile_pixels(4_110, tile.into()).len();
        assert_eq!((spot.tile_row, spot.tile_col), (0, tile));
        assert_eq!(spot.sized.spot.key as usize, 4 * width + own);
        assert_eq!((spot.sized.row, spot.sized.col), (4, own as u16 + 1));
        assert_eq!(spot.sized.spot.x, own as f32 + 0.5);
        assert_eq!(moved(&spot), [0.5, 0.0].map(f32::to_bits));
        assert_eq!((spot.x(), spot.y()), (col as f64 + 0.5, 4.0));
        assert_eq!(spot.pixel(4_110), (4, col));
    }
}

#[test]
fn a_blob_near_a_seam_of_rows_is_listed_once() {
    for (row, tile) in near_a_seam() {
        let spot = Scene::of_blobs(4_110, 9, &[(row, 4)]).only_spot();
        let own = row - TILE_STEP * usize::from(tile);
        assert_eq!((spot.tile_row, spot.tile_col), (tile, 0));
        assert_eq!(spot.sized.spot.key as usize, 9 * own + 4);
        assert_eq!((spot.sized.row, spot.sized.col), (own as u16, 5));
        assert_eq!(spot.sized.spot.y, own as f32);
        assert_eq!(moved(&spot), [0.5, 0.0].map(f32::to_bits));
        assert_eq!((spot.x(), spot.y()), (4.5, row as f64));
        assert_eq!(spot.pixel(9), (row, 4));
    }
}

#[test]
fn tiles_go_row_by_row() {
    let blobs = [(9, 4_095), (4_095, 9), (9, 9), (4_095, 4_095)];
    let scene = Scene::of_blobs(4_100, 4_100, &blobs);
    let spots = scene.spots();
    let tiles: Vec<(u16, u16)> = spots.iter().map(|s| (s.tile_row, s.tile_col)).collect();
    let pixels: Vec<(usize, usize)> = spots.iter().map(|s| s.pixel(4_100)).collect();
    assert_eq!(tiles, [(0, 0), (0, 1), (1, 0), (1, 1)]);
    assert_eq!(pixels, [(9, 9), (9, 4_095), (4_095, 9), (4_095, 4_095)]);
}

/// Noise, another in each level.
fn noise(pixels: usize) -> [Vec<f32>; 4] {
    let mut state = 1u32;
    let mut next = || {
        state = state.wrapping_mul(1_664_525).wrapping_add(1_013_904_223);
        (state >> 8) as f32 / 8_388_608.0 - 1.0
    };
    [0; 4].map(|_| (0..pixels).map(|_| next()).collect())
}

const OPEN: Thresholds = Thresholds {
    peak: 0.0,
    sigma: 0.0,
    ratio: 12.1,
    low: -1.0,
    high: 9.0,
};

const STANDARD: &[u8] = include_bytes!("../../python/src/uramsheg/standard.set");

/// Four levels as a map.
fn map_of(rows: usize, cols: usize, levels: [&[f32]; 4]) -> Map<'_> {
    Map {
        rows,
        cols,
        octave: 2,
        levels,
    }
}

/// The sized records of a map.
fn joined(map: Map<'_>) -> Vec<u8> {
    let mut list = vec![0; map.levels[0].len() * SPOT_BYTES];
    let found = uramsheg::detect(STANDARD, OPEN, map, &mut list).unwrap();
    let mut sized = vec![0; found * SIZED_BYTES];
    let listed = &list[..found * SPOT_BYTES];
    uramsheg::join(STANDARD, map.rows, map.cols, listed, &mut sized).unwrap();
    sized
}

#[test]
fn the_records_are_those_of_the_tiles_one_behind_the_other() {
    let (rows, cols) = (21, 4_130);
    let levels = noise(rows * cols);
    let mut due = Vec::new();
    for tile in [0, 1] {
        let own = levels.each_ref().map(|level| cut(level, rows, (0, tile)));
        let width = tile_pixels(cols, tile).len();
        let sized = joined(map_of(rows, width, own.each_ref().map(Vec::as_slice)));
        assert!(!sized.is_empty(), "tile {tile} has no spot");
        for record in sized.chunks(SIZED_BYTES) {
            due.extend([0, 0, tile as u8, 0]);
            due.extend(record);
        }
    }
    let map = map_of(rows, cols, levels.each_ref().map(Vec::as_slice));
    let left = call(STANDARD, OPEN, map, [rows * TILE_LENGTH; 4], due.len());
    assert_eq!(left.answer, Ok(due.len() / SCENE_BYTES));
    assert!(left.out == due);
}

#[test]
fn the_output_grows_until_all_spots_fit() {
    let blobs: Vec<(usize, usize)> = (0..96 * 96)
        .map(|blob| (4 + 2 * (blob / 96), 4 + 2 * (blob % 96)))
        .collect();
    let scene = Scene::of_blobs(200, 200, &blobs);
    let found = scene.spots();
    let pixels = found.iter().map(|spot| spot.pixel(200));
    assert!(pixels.eq(blobs));
}

#[test]
fn a_tile_lists_its_maps_spots_where_it_is_detected_once_and_where_twice() {
    for count in [2_730, 2_731] {
        let blobs: Vec<(usize, usize)> = (0..count)
            .map(|blob| (4 + 2 * (blob / 96), 4 + 2 * (blob % 96)))
            .collect();
        let scene = Scene::of_blobs(200, 200, &blobs);
        let sized: Vec<SizedSpot> = scene.spots().iter().map(|spot| spot.sized).collect();
        let due = uramsheg::sized_spots(&set_t(), THRESHOLDS, scene.map());
        assert_eq!((sized.len(), Ok(sized)), (count, due));
    }
}

#[test]
fn a_full_output_holds_whole_tiles_and_tells_how_many() {
    // three spots in the first tile, none in the second, one in the third
    let scene = Scene::of_blobs(9, 8_200, &[(4, 40), (4, 50), (4, 4_000), (4, 8_190)]);
    let all = scene.with_room(4 * SCENE_BYTES);
    assert_eq!(all.answer, Ok(4));
    for (room, tiles, written) in [
        (0, 0, 0),
        (SCENE_BYTES, 0, 0),
        (3 * SCENE_BYTES - 1, 0, 0),
        (3 * SCENE_BYTES, 2, 3 * SCENE_BYTES),
        (4 * SCENE_BYTES - 1, 2, 3 * SCENE_BYTES),
    ] {
        let left = scene.with_room(room);
        let full = Refusal::Full { tiles };
        assert_eq!(left.answer, Err(full), "with room {room}");
        assert_eq!(left.out[..written], all.out[..written]);
        assert!(left.out[written..].iter().all(|&byte| byte == BYTE));
        // the slices begin with the tile that did not fit
        assert!(left.tile[0].starts_with(&cut(&scene.levels[0], 9, (0, tiles))));
    }
    let more = scene.with_room(4 * SCENE_BYTES + 5);
    assert_eq!(more.answer, Ok(4));
    assert_eq!(more.out, [&all.out[..], &[BYTE; 5]].concat());
}

#[test]
fn tile_slices_keep_what_the_copies_leave() {
    let none = Thresholds {
        peak: f32::INFINITY,
        ..OPEN
    };
    let lengths = [0, 1, 7, 100].map(|more| 9 * TILE_LENGTH + more);
    // the last two tiles, the same one twice where it is as long as the one before
    for (rows, cols, tiles) in [
        (9, 8_200, [(0, 1), (0, 2)]),
        (8_200, 9, [(1, 0), (2, 0)]),
        (9, 4_096, [(0, 0); 2]),
        (8_184, 9, [(1, 0); 2]),
        (9, 8_185, [(0, 1), (0, 2)]),
    ] {
        let levels = noise(rows * cols);
        let map = map_of(rows, cols, levels.each_ref().map(Vec::as_slice));
        let left = call(STANDARD, none, map, lengths, 0);
        assert_eq!(left.answer, Ok(0));
        for (slice, level) in left.tile.iter().zip(&levels) {
            let [before, last] = tiles.map(|tile| cut(level, rows, tile));
            assert!(slice.starts_with(&last));
            assert!(slice[last.len()..].starts_with(&before[last.len()..]));
            assert!(slice[before.len()..].iter().all(|&float| float == KEPT));
        }
    }
}

#[test]
fn empty_scenes_are_taken_and_nothing_is_written() {
    for (rows, cols) in [(0, 0), (0, 5_000), (SCENE_LONGEST, 0)] {
        let scene = Scene::of_blobs(rows, cols, &[]);
        let left = call(&set_t(), THRESHOLDS, scene.map(), [0, 1, 2, 3], 3);
        assert_eq!(left.answer, Ok(0));
        assert!(left.is_untouched());
        assert_eq!(scene.spots(), []);
    }
}

#[test]
fn sides_to_16384() {
    let (last, side) = (SCENE_LONGEST - 5, SCENE_LONGEST);
    for (scene, pixel) in [
        (Scene::of_blobs(9, side, &[(4, last)]), (4, last)),
        (Scene::of_blobs(side, 9, &[(last, 4)]), (last, 4)),
    ] {
        let spot = scene.only_spot();
        assert_eq!(spot.pixel(scene.cols), pixel);
        assert_eq!(spot.tile_row + spot.tile_col, 4);
    }
    let refused = |rows, cols| {
        let map = map_of(rows, cols, [&[]; 4]);
        scene_spots(&set_t(), THRESHOLDS, map).err()
    };
    assert_eq!(refused(side + 1, 0), Some(Refusal::Scene));
    assert_eq!(refused(0, side + 1), Some(Refusal::Scene));
    assert_eq!(refused(usize::MAX, usize::MAX), Some(Refusal::Scene));
    assert_eq!(refused(side, side), Some(Refusal::Level));
}

/// A call with these six things wrong with it, in the order of the checks: a side, the length of a level, the octave, a threshold, the set, the length of a tile
/// slice. Of the four levels and slices it is that of the number `which`.
fn call_wrong(scene: &Scene, wrong: [bool; 6], which: usize) -> Left {
    let [side, level, octave, nan, set, slice] = wrong;
    let mut map = scene.map();
    let mut thresholds = THRESHOLDS;
    let mut lengths = [scene.levels[0].len(); 4];
    if side {
        let longer = SCENE_LONGEST + 1;
        (map.rows, map.cols) = [(longer, 0), (0, longer), (usize::MAX, 2), (9, usize::MAX)][which];
    }
    if level {
        map.levels[which] = &map.levels[which][1..];
    }
    if octave {
        map.octave = 6;
    }
    if nan {
        thresholds.low = f32::NAN;
    }
    if slice {
        lengths[which] -= 1;
    }
    let record = set_t();
    call(
        &record[usize::from(set)..],
        thresholds,
        map,
        lengths,
        SCENE_BYTES - 1,
    )
}

#[test]
fn the_first_refusal_of_any_is_given_and_nothing_is_written() {
    let scene = Scene::of_blobs(9, 10, &[(4, 4)]);
    let nan = [false, false, false, true, false];
    let refusals = [
        Refusal::Scene,
        Refusal::Level,
        Refusal::Octave,
        Refusal::Thresholds { nan },
        Refusal::Set,
        Refusal::Room,
    ];
    for chosen in 0..64 {
        let wrong = [0, 1, 2, 3, 4, 5].map(|place| chosen >> place & 1 == 1);
        let first = wrong.iter().position(|&is| is);
        // past all checks the one spot does not fit
        let due = first.map_or(Refusal::Full { tiles: 0 }, |place| refusals[place]);
        for which in 0..4 {
            let left = call_wrong(&scene, wrong, which);
            assert_eq!(left.answer, Err(due), "{wrong:?}");
            assert!(first.is_none() || left.is_untouched(), "{wrong:?}");
        }
    }
}

#[test]
fn a_record_reads_as_a_spot_with_its_places_in_the_scene() {
    let mut record = [0; SCENE_BYTES];
    record[..4].copy_from_slice(&[3, 0, 4, 0]);
    let spot = Spot {
        x: 4.499_999_5,
        y: f32::from_bits(0x457e_b334),
        sigma: 2.0,
        peak: 4.0,
        samples: [-1.0, 4.0, 0.0, 0.0],
        key: 30 * 4_075 + 4,
        octave: 0,
        scale_index: 1,
        is_max: true,
        dx: 0.499_999_5,
        dy: -0.6,
    };
    let floats = [spot.x, spot.y, spot.sigma, spot.peak];
    for (place, float) in floats.iter().chain(&spot.samples).enumerate() {
        record[4 + 4 * place..][..4].copy_from_slice(&float.to_le_bytes());
    }
    record[36..40].copy_from_slice(&spot.key.to_le_bytes());
    record[40..44].copy_from_slice(&[0, 1, 1, 0]);
    for (place, float) in [(44, spot.dx), (48, spot.dy), (52, 2.5)] {
        record[place..place + 4].copy_from_slice(&float.to_le_bytes());
    }
    record[56..62].copy_from_slice(&[0xeb, 0x0f, 4, 0, 1, 0]);
    let read = SceneSpot::from_record(&record);
    let sized = SizedSpot {
        spot,
        size: Some(2.5),
        missing: None,
        row: 4_075,
        col: 4,
    };
    assert_eq!((read.tile_row, read.tile_col, read.sized), (3, 4, sized));
    // no place is rounded: what is taken off is the tile's start, and the rest is the own place, to the last bit
    assert_eq!(read.x() - 16_352.0, f64::from(spot.x));
    assert_eq!(read.y() - 12_264.0, f64::from(spot.y));
    assert_ne!((16_352.0 + spot.x) - 16_352.0, spot.x);
    // the last tile of 16,382 cols is 30 wide
    assert_eq!(read.pixel(16_382), (12_264 + 4_075, 16_352 + 4));
    // a scene that has no such tile is another one: some pixel is given
    read.pixel(0);
}

#[test]
fn the_refusals_of_a_scene_say_what_to_do() {
    assert_eq!(Refusal::from_number(10, 0), Some(Refusal::Scene));
    assert!(Refusal::Scene.to_string().contains("16384"));
    assert!(Refusal::Size.to_string().contains("as a scene does"));
    let full = Refusal::Full { tiles: 3 };
    assert_eq!(Refusal::from_number(6, 3), Some(full));
    assert_eq!(Refusal::from_number(6, 0), Some(Refusal::Room));
    assert_eq!(full.number(), 6);
    assert!(full.to_string().contains("full after 3 whole tiles"));
}
