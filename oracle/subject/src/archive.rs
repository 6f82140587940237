//! The detector as its archive exports it, through the Rust wrapper. Every buffer is lent beside an untouchable page: each call is made twice, with
//! that page before every buffer and then behind it, and both must answer and leave the same.

use crate::guarded::{Room, Side};
use crate::{
    Call, Correction, Fed, Lent, Reading, Reply, Subject, Tiling, desks, partners, scene, stores,
};
use cases::{Keep, Raw, Scene, Set, Start};
use core::fmt::Debug;
use uramsheg::{Map, Refusal, Thresholds, raw};

/// libalp_c.a, linked in.
#[derive(Default)]
pub struct Archive {
    set: Room,
    levels: [Room; 4],
    list: Room,
    raw: Room,
    out: Room,
    feeds: [FeedRooms; 2],
    slices: [Room; 4],
    table: Room,
}

/// One of the wrapper's two joins.
type Join = fn(&[u8], usize, usize, &[u8], &mut [u8]) -> Result<usize, Refusal>;

impl Archive {
    /// A join on copies beside the page, on either side of it.
    fn joined(
        &mut self,
        join: Join,
        set: &Set,
        (rows, cols): (usize, usize),
        list: &[u8],
        out: &mut [u8],
    ) -> Reply {
        let record = set.record();
        both_sides(out, |side, left| {
            let set = self.set.lend(side, &record);
            let list = self.list.lend(side, list);
            let lent = self.out.lend(side, left);
            let answer = join(set, rows, cols, list, lent);
            left.copy_from_slice(lent);
            reply(answer)
        })
    }

    /// A scene's call on copies beside the page, with the page before them by the wrapper, with the page behind them by the C function; what it leaves goes
    /// back into what was lent.
    fn tiled(
        &mut self,
        side: Side,
        given: &Start,
        levels: [&[f32]; 4],
        lent: &mut Tiling<'_>,
    ) -> Fed {
        let set = self.set.lend(side, &given.record);
        let shown = lend_four(&mut self.levels, side, levels);
        let slices = lent.slices.each_ref().map(|slice| &**slice);
        let mut left = Tiling {
            slices: lend_four(&mut self.slices, side, slices),
            out: self.out.lend(side, lent.out),
        };
        let call = match side {
            Side::Before => scene::wrapped,
            Side::Behind => scene::called,
        };
        let seen = shown.each_ref().map(|level| &**level);
        let written = left.slices.each_mut().map(|slice| &mut **slice);
        let fed = call(set, given, seen, written, left.out);
        assert!(
            four_bytes(&shown) == levels.map(bytes),
            "a level was written"
        );
        for (slice, left) in lent.slices.iter_mut().zip(left.slices) {
            slice.copy_from_slice(left);
        }
        lent.out.copy_from_slice(left.out);
        fed
    }
}

/// What a feed's calls are lent on one side of the page.
#[derive(Default)]
struct FeedRooms {
    state: Room,
    columns: [Room; 4],
    ring: [Room; 4],
    out: Room,
}

impl FeedRooms {
    /// A call on copies beside the page, and what it leaves: with the page before them by the wrapper, with the page behind them by the C function.
    fn call(&mut self, side: Side, columns: [&[f32]; 4], lent: &Lent<'_>) -> (Fed, Lent<'_>) {
        let ring = lent.ring.each_ref().map(|slice| &**slice);
        let given = lend_four(&mut self.columns, side, columns);
        let mut left = Lent {
            state: self.state.lend(side, lent.state),
            ring: lend_four(&mut self.ring, side, ring),
            out: self.out.lend(side, lent.out),
        };
        let shown = given.each_ref().map(|column| &**column);
        let slices = left.ring.each_mut().map(|slice| &mut **slice);
        let fed = match side {
            Side::Before => wrapped_column(left.state, shown, slices, left.out),
            Side::Behind => raw_column(left.state, shown, slices, left.out),
        };
        assert!(
            four_bytes(&given) == columns.map(bytes),
            "a given column was written"
        );
        (fed, left)
    }
}

/// Five thresholds by their names.
pub(crate) fn thresholds_of([peak, sigma, ratio, low, high]: [f32; 5]) -> Thresholds {
    Thresholds {
        peak,
        sigma,
        ratio,
        low,
        high,
    }
}

/// Four buffers beside the page.
pub fn lend_four<'a>(
    rooms: &'a mut [Room; 4],
    side: Side,
    four: [&[f32]; 4],
) -> [&'a mut [f32]; 4] {
    let mut four = four.iter();
    rooms.each_mut().map(|room| {
        let values = four.next().map_or(&[][..], |values| values);
        room.lend(side, values)
    })
}

/// The floats' bytes, four buffers' worth.
fn four_bytes<'a>(four: &'a [&mut [f32]; 4]) -> [&'a [u8]; 4] {
    four.each_ref().map(|values| bytes(values))
}

/// The C function's own answer, its value another number before the call.
fn raw_column(
    state: &mut [u8],
    columns: [&[f32]; 4],
    ring: [&mut [f32]; 4],
    out: &mut [u8],
) -> Fed {
    let [c0, c1, c2, c3] = columns;
    let [r0, r1, r2, r3] = ring;
    let mut value = u64::MAX;
    // SAFETY: each pointer goes with its own slice's length, and what is written overlaps nothing.
    let number = unsafe {
        raw::uramsheg_feed_column(
            state.as_mut_ptr(),
            state.len(),
            c0.as_ptr(),
            c0.len(),
            c1.as_ptr(),
            c1.len(),
            c2.as_ptr(),
            c2.len(),
            c3.as_ptr(),
            c3.len(),
            r0.as_mut_ptr(),
            r0.len(),
            r1.as_mut_ptr(),
            r1.len(),
            r2.as_mut_ptr(),
            r2.len(),
            r3.as_mut_ptr(),
            r3.len(),
            out.as_mut_ptr(),
            out.len(),
            &mut value,
        )
    };
    Fed { number, value }
}

/// The wrapper's answer; beside a refusal it hands on no value.
fn wrapped_column(
    state: &mut [u8],
    columns: [&[f32]; 4],
    ring: [&mut [f32]; 4],
    out: &mut [u8],
) -> Fed {
    match uramsheg::feed_column(state, columns, ring, out) {
        Ok(count) => Fed {
            number: 0,
            value: count as u64,
        },
        Err(refusal) => Fed {
            number: refusal.number(),
            value: 0,
        },
    }
}

fn reply(answer: Result<usize, Refusal>) -> Reply {
    match answer {
        Ok(count) => Reply::Done(count),
        Err(Refusal::Records { index }) => Reply::Refused { number: 5, index },
        Err(refusal) => Reply::Refused {
            number: refusal.number(),
            index: 0,
        },
    }
}

/// Calls with the page on either side; the call lends `out` and fills it with what is left there.
fn both_sides<T: Copy, R: PartialEq + Debug>(
    out: &mut [T],
    mut call: impl FnMut(Side, &mut [T]) -> R,
) -> R {
    let mut other = out.to_vec();
    let answers = [call(Side::Before, &mut other), call(Side::Behind, out)];
    let [one, answer] = answers;
    assert_eq!(one, answer, "the answer depends on where the buffers stand");
    assert!(
        bytes(&other) == bytes(out),
        "what is written depends on where the buffers stand"
    );
    answer
}

/// Four buffers that stand one after another.
fn parts(all: &[f32], rooms: [usize; 4]) -> [&[f32]; 4] {
    let mut rest = all;
    rooms.map(|room| {
        let (part, others) = rest.split_at(room);
        rest = others;
        part
    })
}

/// The bytes of numbers.
fn bytes<T: Copy>(numbers: &[T]) -> &[u8] {
    // SAFETY: u8 and f32, of which alone it is asked, have no unused bytes.
    unsafe { core::slice::from_raw_parts(numbers.as_ptr().cast(), size_of_val(numbers)) }
}

/// What the C function leaves in a cause that held another number: the wrapper hands it on beside 7 alone.
fn raw_cause(set: &[u8], [s0, s1, s2, s3]: [f32; 4], sigma: f32, is_max: bool) -> u64 {
    let (mut corrected, mut cause) = (0.0, u64::MAX);
    // SAFETY: the pointer goes with the slice's own length, and neither `corrected` nor `cause` overlaps another.
    unsafe {
        raw::uramsheg_correct(
            set.as_ptr(),
            set.len(),
            s0,
            s1,
            s2,
            s3,
            sigma,
            is_max,
            &mut corrected,
            &mut cause,
        )
    };
    cause
}

impl Subject for Archive {
    fn name(&self) -> String {
        "the archive".into()
    }

    fn detect(&mut self, scene: &Scene, out: &mut [u8]) -> Option<Reply> {
        let thresholds = thresholds_of(scene.thresholds);
        let record = scene.set.record();
        Some(both_sides(out, |side, left| {
            let set = self.set.lend(side, &record);
            let mut levels = scene.levels.iter();
            let levels = self.levels.each_mut().map(|room| {
                let level = levels.next().map_or(&[][..], Vec::as_slice);
                &*room.lend(side, level)
            });
            let map = Map {
                rows: scene.rows,
                cols: scene.cols,
                octave: scene.octave,
                levels,
            };
            let lent = self.out.lend(side, left);
            let answer = uramsheg::detect(set, thresholds, map, lent);
            left.copy_from_slice(lent);
            reply(answer)
        }))
    }

    fn join(
        &mut self,
        set: &Set,
        rows: usize,
        cols: usize,
        list: &[u8],
        out: &mut [u8],
    ) -> Option<Reply> {
        Some(self.joined(uramsheg::join, set, (rows, cols), list, out))
    }

    fn join_old(
        &mut self,
        set: &Set,
        rows: usize,
        cols: usize,
        list: &[u8],
        out: &mut [u8],
    ) -> Option<Reply> {
        Some(self.joined(uramsheg::join_old, set, (rows, cols), list, out))
    }

    fn correct(
        &mut self,
        set: &Set,
        samples: [f32; 4],
        sigma: f32,
        is_max: bool,
    ) -> Option<Correction> {
        let record = set.record();
        let (bits, cause) = both_sides::<u8, _>(&mut [], |side, _| {
            let set = self.set.lend(side, &record);
            let size = uramsheg::correct(set, samples, sigma, is_max);
            let cause = raw_cause(set, samples, sigma, is_max);
            if let Err(Refusal::NoSize(why)) = size {
                assert_eq!(cause, u64::from(why.number()), "the wrapper's cause");
            }
            (size.map(f32::to_bits).map_err(Refusal::number), cause)
        });
        Some(Correction {
            size: bits.map(f32::from_bits),
            cause: u8::try_from(cause).unwrap_or(u8::MAX),
        })
    }

    fn octave_count(&mut self, rows: usize, cols: usize) -> Option<usize> {
        Some(uramsheg::octave_count(rows, cols) as usize)
    }

    fn downsample(
        &mut self,
        rows: usize,
        cols: usize,
        level: &[f32],
        out: &mut [f32],
    ) -> Option<Result<(usize, usize), u32>> {
        Some(both_sides(out, |side, left| {
            let level = self.levels[0].lend(side, level);
            let lent = self.out.lend(side, left);
            let answer = uramsheg::downsample(rows, cols, level, lent);
            left.copy_from_slice(lent);
            answer.map_err(Refusal::number)
        }))
    }

    fn read_set(&mut self, bytes: &[u8]) -> Option<Result<(), u32>> {
        Some(both_sides::<u8, _>(&mut [], |side, _| {
            let set = self.set.lend(side, bytes);
            uramsheg::check_set(set).map_err(Refusal::number)
        }))
    }

    fn levels(
        &mut self,
        record: &[u8],
        raw: &Raw,
        out: &mut [Vec<f32>; 4],
    ) -> Option<Result<(), u32>> {
        let rooms = out.each_ref().map(Vec::len);
        let mut all = out.concat();
        let answer = both_sides(&mut all, |side, left| {
            let set = self.set.lend(side, record);
            let pixels = self.raw.lend(side, &raw.pixels);
            let lent = parts(left, rooms);
            let mut lent = lent.iter();
            let [l0, l1, l2, l3] = self.levels.each_mut().map(|room| {
                let level = lent.next().map_or(&[][..], |level| level);
                room.lend(side, level)
            });
            let (rows, cols, octave) = (raw.rows, raw.cols, raw.octave);
            let answer = uramsheg::levels(set, rows, cols, octave, pixels, [l0, l1, l2, l3]);
            let written = [&*l0, &*l1, &*l2, &*l3].concat();
            left.copy_from_slice(&written);
            answer.map_err(Refusal::number)
        });
        for (level, made) in out.iter_mut().zip(parts(&all, rooms)) {
            level.copy_from_slice(made);
        }
        Some(answer)
    }

    fn feed_start(
        &mut self,
        start: &Start,
        ring: [&[f32]; 4],
        state: &mut [u8],
    ) -> Option<Result<(), u32>> {
        let thresholds = thresholds_of(start.thresholds);
        let (rows, cols, octave) = (start.rows, start.cols, start.octave);
        Some(both_sides(state, |side, left| {
            let set = self.set.lend(side, &start.record);
            let lent = lend_four(&mut self.levels, side, ring);
            let room = self.out.lend(side, left);
            let slices = lent.each_ref().map(|slice| &**slice);
            let answer = uramsheg::feed_start(set, thresholds, rows, cols, octave, slices, room);
            assert!(
                four_bytes(&lent) == ring.map(bytes),
                "a start wrote the ring"
            );
            left.copy_from_slice(room);
            answer.map_err(Refusal::number)
        }))
    }

    fn feed_column(&mut self, columns: [&[f32]; 4], lent: Lent<'_>) -> Option<Fed> {
        let [before, behind] = &mut self.feeds;
        let one = before.call(Side::Before, columns, &lent);
        let other = behind.call(Side::Behind, columns, &lent);
        let (fed, left) = one;
        assert_eq!(
            fed, other.0,
            "the answer depends on where the buffers stand"
        );
        assert!(
            left.state == other.1.state
                && four_bytes(&left.ring) == four_bytes(&other.1.ring)
                && left.out == other.1.out,
            "what is written depends on where the buffers stand"
        );
        lent.state.copy_from_slice(left.state);
        lent.out.copy_from_slice(left.out);
        for (slice, left) in lent.ring.into_iter().zip(left.ring) {
            slice.copy_from_slice(left);
        }
        Some(fed)
    }

    fn scene(&mut self, given: &Start, levels: [&[f32]; 4], mut lent: Tiling<'_>) -> Option<Fed> {
        let mut slices = lent.slices.each_ref().map(|slice| slice.to_vec());
        let mut out = lent.out.to_vec();
        let mut other = Tiling {
            slices: slices.each_mut().map(Vec::as_mut_slice),
            out: &mut out,
        };
        let one = self.tiled(Side::Before, given, levels, &mut other);
        let fed = self.tiled(Side::Behind, given, levels, &mut lent);
        assert_eq!(one, fed, "the answer depends on where the buffers stand");
        assert!(
            four_bytes(&other.slices) == four_bytes(&lent.slices) && other.out == lent.out,
            "what is written depends on where the buffers stand"
        );
        Some(fed)
    }

    /// On copies of the table and of the record beside the page: with the page before them by the wrapper, with the page behind them by the C function.
    fn desk_call(
        &mut self,
        table: &mut [u8],
        desk: usize,
        slot: usize,
        call: Call<'_>,
    ) -> Option<u32> {
        Some(both_sides(table, |side, left| {
            let lent = self.table.lend(side, left);
            let call = match call {
                Call::Write(record) => Call::Write(self.set.lend(side, record)),
                other => other,
            };
            let number = match side {
                Side::Before => desks::wrapped(lent, desk, slot, call),
                Side::Behind => desks::called(lent, desk, slot, call),
            };
            left.copy_from_slice(lent);
            number
        }))
    }

    fn desk_run(
        &mut self,
        table: &[u8],
        slot: usize,
        scene: &Scene,
        out: &mut [u8],
    ) -> Option<Fed> {
        let levels = scene.levels.each_ref().map(Vec::as_slice);
        Some(both_sides(out, |side, left| {
            let held = self.table.lend(side, table);
            let shown = lend_four(&mut self.levels, side, levels);
            let seen = shown.each_ref().map(|level| &**level);
            let lent = self.out.lend(side, left);
            let call = match side {
                Side::Before => desks::wrapped_run,
                Side::Behind => desks::called_run,
            };
            let fed = call(held, slot, scene, seen, lent);
            assert!(held == table, "a run wrote the table");
            left.copy_from_slice(lent);
            fed
        }))
    }

    /// On copies of the store and of the record beside the page.
    fn store_call(&mut self, store: &mut [u8], keep: &Keep) -> Option<Fed> {
        Some(both_sides(store, |side, left| {
            let lent = self.out.lend(side, left);
            let spot = self.list.lend(side, keep.spot());
            let fed = match side {
                Side::Before => stores::wrapped(lent, keep, spot),
                Side::Behind => stores::called(lent, keep, spot),
            };
            assert!(spot == keep.spot(), "adding wrote the record");
            left.copy_from_slice(lent);
            fed
        }))
    }

    /// On copies of the set, the levels and the list beside the page, all of which must be left as they were.
    fn accept(&mut self, given: &Start, levels: [&[f32]; 4], list: &[u8]) -> Option<Reading> {
        Some(both_sides::<u8, _>(&mut [], |side, _| {
            let set = self.set.lend(side, &given.record);
            let shown = lend_four(&mut self.levels, side, levels);
            let lent = self.list.lend(side, list);
            let call = match side {
                Side::Before => partners::wrapped,
                Side::Behind => partners::called,
            };
            let reading = call(set, given, shown.each_ref().map(|level| &**level), lent);
            assert!(
                *set == given.record && *lent == *list && four_bytes(&shown) == levels.map(bytes),
                "reading a list wrote what was lent"
            );
            reading
        }))
    }
}
