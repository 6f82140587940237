//! Whole scenes, document 02's No. 7: the refusals in their order, then the published reference on the scene as if it were one map, its spots dealt out to
//! the tiles that judge them.

use crate::columns::only;
use crate::entries::{any_nan, sized};
use crate::here::with;
use crate::record::{SIZED, SPOT, Spot, is_max, key, laid};
use crate::run::offered;
use crate::{Logs, Map, Pass, Rules, Set};
use core::cell::Cell;
use core::iter::successors;
use core::ops::Range;

/// The longest side of a scene.
pub const LONGEST: usize = 16_384;
/// The bytes of a record: the tile's two numbers, then a sized record.
pub const RECORD: usize = 4 + SIZED;
/// The pixels at a map's border that are not judged.
const BORDER: usize = 4;

/// How a side is cut: how far apart its tiles start, and how long they are.
#[derive(Clone, Copy, Debug, PartialEq, Eq)]
pub struct Cut {
    pub step: usize,
    pub tile: usize,
}

/// Document 02's cut.
pub const CUT: Cut = Cut {
    step: 4088,
    tile: 4096,
};

impl Cut {
    /// Tiles of a step that share as many pixels as document 02's.
    pub fn of(step: usize) -> Cut {
        Cut {
            step,
            tile: step + 2 * BORDER,
        }
    }

    /// The pixels of each tile along a side; another follows while pixels past the last remain.
    pub fn along(self, side: usize) -> impl Iterator<Item = Range<usize>> {
        let tile = move |start: usize| start..side.min(start + self.tile);
        let next = move |last: &Range<usize>| {
            let more = last.end < side;
            more.then(|| tile(last.start + self.step))
        };
        successors(Some(tile(0)), next)
    }

    /// The tiles of a scene, row by row.
    pub fn tiles(self, rows: usize, cols: usize) -> Vec<Tile> {
        let mut all = Vec::new();
        for (row, down) in self.along(rows).enumerate() {
            for (col, right) in self.along(cols).enumerate() {
                all.push(Tile {
                    row,
                    col,
                    rows: down.clone(),
                    cols: right,
                });
            }
        }
        all
    }
}

/// A tile: its numbers, and the scene's rows and cols that it holds.
#[derive(Clone, Debug, PartialEq, Eq)]
pub struct Tile {
    pub row: usize,
    pub col: usize,
    pub rows: Range<usize>,
    pub cols: Range<usize>,
}

/// Whether a tile's pixels judge a place.
fn judge(pixels: &Range<usize>, place: usize) -> bool {
    place >= pixels.start + BORDER && place + BORDER < pixels.end
}

impl Tile {
    fn judges(&self, spot: &Found) -> bool {
        judge(&self.rows, spot.row) && judge(&self.cols, spot.col)
    }

    /// The order key that a spot has in the tile.
    fn key(&self, spot: &Found) -> u32 {
        let (row, col) = (spot.row - self.rows.start, spot.col - self.cols.start);
        (row * self.cols.len() + col) as u32
    }
}

thread_local! {
    static HERE: Cell<Option<Cut>> = const { Cell::new(None) };
}

/// The place that the refinement begins at: the scene's, or where the scene is cut its own in the tile that judges it.
pub fn own(place: usize, side: usize) -> usize {
    let judging = HERE
        .get()
        .and_then(|cut| cut.along(side).find(|pixels| judge(pixels, place)));
    place - judging.map_or(0, |pixels| pixels.start)
}

/// A spot by its pixel of the scene; of its record x and y are the tile's own where the scene is cut, the key the scene's.
#[derive(Clone, Debug, PartialEq, Eq)]
pub struct Found {
    pub row: usize,
    pub col: usize,
    pub record: [u8; SPOT],
}

/// The columns at most two off one with a pixel that is not 0: in the others every sample is a zero, and no curvature has a sign.
fn lively(map: Map) -> Vec<usize> {
    let blank = |col: usize| {
        let mut columns = map
            .levels
            .map(|level| &level[col * map.rows..][..map.rows])
            .into_iter();
        columns.all(|column| column.iter().all(|&pixel| pixel == 0.0))
    };
    let blank: Vec<bool> = (0..map.cols).map(blank).collect();
    let near = |col: usize| &blank[col.saturating_sub(2)..map.cols.min(col + 3)];
    let lively = |&col: &usize| near(col).contains(&false);
    (0..map.cols).filter(lively).collect()
}

/// The reference's spots on a map of any sides; a cut tells the refinement its tiles and nothing else.
pub fn untiled(set: &Set, map: Map, cut: Option<Cut>) -> Vec<Found> {
    let before = HERE.replace(cut);
    let find = || offered::detect(Pass::Reference, map).1;
    let spots = only(Some(lively(map)), || {
        with(Rules::Document, Logs::Steps, set, find)
    });
    HERE.set(before);
    let found = |spot: &Spot| Found {
        row: spot.key / map.cols,
        col: spot.key % map.cols,
        record: laid(spot),
    };
    spots.iter().map(found).collect()
}

/// The untiled spots with their sizes.
pub fn untiled_sized(set: &Set, map: Map) -> Vec<Vec<u8>> {
    let spots = untiled(set, map, None);
    let size = |spot: &Found| sized(&spot.record);
    with(Rules::Document, Logs::Steps, set, || {
        spots.iter().map(size).collect()
    })
}

/// What a scene's call is lent.
pub struct Call<'a> {
    pub record: &'a [u8],
    pub map: Map<'a>,
    pub slices: [&'a mut [f32]; 4],
    pub out: &'a mut [u8],
}

/// The refusals before any tile, the first that applies: 10, 2, 3, 8, 4, 6.
fn refusal(cut: Cut, call: &Call) -> Option<u32> {
    let Map {
        thresholds,
        rows,
        cols,
        octave,
        levels,
    } = call.map;
    let needed = rows.min(cut.tile) * cols.min(cut.tile);
    if rows > LONGEST || cols > LONGEST {
        Some(10)
    } else if levels.iter().any(|level| level.len() != rows * cols) {
        Some(2)
    } else if octave > 5 {
        Some(3)
    } else if any_nan(thresholds) {
        Some(8)
    } else if Set::from_record(call.record).is_none() {
        Some(4)
    } else if call.slices.iter().any(|slice| slice.len() < needed) {
        Some(6)
    } else {
        None
    }
}

/// The records of a tile, of all the scene's spots: by rising key, the minimum before the maximum, each sized as the join does it.
fn records(set: &Set, tile: &Tile, spots: &[Found]) -> Vec<u8> {
    let mut list: Vec<[u8; SPOT]> = Vec::new();
    for spot in spots.iter().filter(|spot| tile.judges(spot)) {
        let mut record = spot.record;
        record[32..36].copy_from_slice(&tile.key(spot).to_le_bytes());
        list.push(record);
    }
    list.sort_by_key(|record| (key(record), is_max(record)));
    let [row, col] = [tile.row, tile.col].map(|number| (number as u16).to_le_bytes());
    let numbered = |sized: Vec<u8>| [&row[..], &col, &sized].concat();
    with(Rules::Document, Logs::Steps, set, || {
        list.iter()
            .flat_map(|record| numbered(sized(record)))
            .collect()
    })
}

/// What a place of a slice holds once the tiles were put there one after another: the pixel of the last that reaches it.
fn held(tiles: &[Tile], rows: usize, level: &[f32], place: usize) -> Option<f32> {
    let reaches = |tile: &&Tile| place < tile.rows.len() * tile.cols.len();
    let tile = tiles.iter().rev().find(reaches)?;
    let (row, col) = (place % tile.rows.len(), place / tile.rows.len());
    Some(level[(tile.cols.start + col) * rows + tile.rows.start + row])
}

/// Puts tiles into the slices.
fn put(tiles: &[Tile], call: &mut Call) {
    for (slice, level) in call.slices.iter_mut().zip(call.map.levels) {
        for (place, pixel) in slice.iter_mut().enumerate() {
            *pixel = held(tiles, call.map.rows, level, place).unwrap_or(*pixel);
        }
    }
}

/// A scene: the refusal's number or 0, and the value beside it.
pub fn scene(cut: Cut, mut call: Call) -> (u32, u64) {
    if let Some(number) = refusal(cut, &call) {
        return (number, 0);
    }
    let set = Set::unchecked(call.record);
    let tiles = cut.tiles(call.map.rows, call.map.cols);
    let spots = untiled(&set, call.map, Some(cut));
    let mut written = 0;
    for (number, tile) in tiles.iter().enumerate() {
        let records = records(&set, tile, &spots);
        let Some(room) = call.out[written..].get_mut(..records.len()) else {
            put(&tiles[..=number], &mut call);
            return (6, number as u64);
        };
        room.copy_from_slice(&records);
        written += records.len();
    }
    put(&tiles, &mut call);
    (0, (written / RECORD) as u64)
}
