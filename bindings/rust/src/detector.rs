//! The detector's functions: those of the archive, and three that make room by themselves.

use crate::{Refusal, SIZED_BYTES, SPOT_BYTES, SizedSpot, Spot};

/// The archive's functions as C has them, for the comparison: a slice is passed as its start and its length.
pub mod raw {
    unsafe extern "C" {
        pub fn uramsheg_levels(
            set: *const u8,
            set_length: usize,
            rows: usize,
            cols: usize,
            octave: usize,
            raw: *const f32,
            raw_length: usize,
            l0: *mut f32,
            l0_length: usize,
            l1: *mut f32,
            l1_length: usize,
            l2: *mut f32,
            l2_length: usize,
            l3: *mut f32,
            l3_length: usize,
        ) -> u32;
        pub fn uramsheg_detect(
            set: *const u8,
            set_length: usize,
            peak: f32,
            sigma: f32,
            ratio: f32,
            low: f32,
            high: f32,
            rows: usize,
            cols: usize,
            octave: usize,
            l0: *const f32,
            l0_length: usize,
            l1: *const f32,
            l1_length: usize,
            l2: *const f32,
            l2_length: usize,
            l3: *const f32,
            l3_length: usize,
            out: *mut u8,
            out_length: usize,
            value: *mut u64,
        ) -> u32;
        pub fn uramsheg_join(
            set: *const u8,
            set_length: usize,
            rows: usize,
            cols: usize,
            list: *const u8,
            list_length: usize,
            out: *mut u8,
            out_length: usize,
            value: *mut u64,
        ) -> u32;
        pub fn uramsheg_join_old(
            set: *const u8,
            set_length: usize,
            rows: usize,
            cols: usize,
            list: *const u8,
            list_length: usize,
            out: *mut u8,
            out_length: usize,
            value: *mut u64,
        ) -> u32;
        pub fn uramsheg_correct(
            set: *const u8,
            set_length: usize,
            s0: f32,
            s1: f32,
            s2: f32,
            s3: f32,
            sigma: f32,
            is_max: bool,
            corrected: *mut f32,
            cause: *mut u64,
        ) -> u32;
        pub safe fn uramsheg_octave_count(rows: usize, cols: usize) -> u32;
        pub fn uramsheg_downsample(
            rows: usize,
            cols: usize,
            level: *const f32,
            level_length: usize,
            out: *mut f32,
            out_length: usize,
            half_rows: *mut u64,
            half_cols: *mut u64,
        ) -> u32;
        pub fn uramsheg_set_check(set: *const u8, set_length: usize) -> u32;
        pub fn uramsheg_feed_start(
            set: *const u8,
            set_length: usize,
            peak: f32,
            sigma: f32,
            ratio: f32,
            low: f32,
            high: f32,
            rows: usize,
            cols: usize,
            octave: usize,
            ring0: *const f32,
            ring0_length: usize,
            ring1: *const f32,
            ring1_length: usize,
            ring2: *const f32,
            ring2_length: usize,
            ring3: *const f32,
            ring3_length: usize,
            state: *mut u8,
            state_length: usize,
        ) -> u32;
        pub fn uramsheg_feed_column(
            state: *mut u8,
            state_length: usize,
            column0: *const f32,
            column0_length: usize,
            column1: *const f32,
            column1_length: usize,
            column2: *const f32,
            column2_length: usize,
            column3: *const f32,
            column3_length: usize,
            ring0: *mut f32,
            ring0_length: usize,
            ring1: *mut f32,
            ring1_length: usize,
            ring2: *mut f32,
            ring2_length: usize,
            ring3: *mut f32,
            ring3_length: usize,
            out: *mut u8,
            out_length: usize,
            value: *mut u64,
        ) -> u32;
        pub fn uramsheg_scene(
            set: *const u8,
            set_length: usize,
            peak: f32,
            sigma: f32,
            ratio: f32,
            low: f32,
            high: f32,
            rows: usize,
            cols: usize,
            octave: usize,
            l0: *const f32,
            l0_length: usize,
            l1: *const f32,
            l1_length: usize,
            l2: *const f32,
            l2_length: usize,
            l3: *const f32,
            l3_length: usize,
            tile0: *mut f32,
            tile0_length: usize,
            tile1: *mut f32,
            tile1_length: usize,
            tile2: *mut f32,
            tile2_length: usize,
            tile3: *mut f32,
            tile3_length: usize,
            out: *mut u8,
            out_length: usize,
            value: *mut u64,
        ) -> u32;
        pub fn uramsheg_desk_claim(
            table: *mut u8,
            table_length: usize,
            desk: usize,
            slot: usize,
        ) -> u32;
        pub fn uramsheg_desk_write(
            table: *mut u8,
            table_length: usize,
            desk: usize,
            slot: usize,
            set: *const u8,
            set_length: usize,
        ) -> u32;
        pub fn uramsheg_desk_release(
            table: *mut u8,
            table_length: usize,
            desk: usize,
            slot: usize,
        ) -> u32;
        pub fn uramsheg_desk_run(
            table: *const u8,
            table_length: usize,
            slot: usize,
            peak: f32,
            sigma: f32,
            ratio: f32,
            low: f32,
            high: f32,
            rows: usize,
            cols: usize,
            octave: usize,
            l0: *const f32,
            l0_length: usize,
            l1: *const f32,
            l1_length: usize,
            l2: *const f32,
            l2_length: usize,
            l3: *const f32,
            l3_length: usize,
            out: *mut u8,
            out_length: usize,
            value: *mut u64,
        ) -> u32;
        pub fn uramsheg_store_clear(store: *mut u8, store_length: usize, value: *mut u64) -> u32;
        pub fn uramsheg_store_add(
            store: *mut u8,
            store_length: usize,
            rows: usize,
            cols: usize,
            spot: *const u8,
            spot_length: usize,
            value: *mut u64,
        ) -> u32;
        pub fn uramsheg_store_strike(
            store: *mut u8,
            store_length: usize,
            rows: usize,
            cols: usize,
            slot: usize,
            value: *mut u64,
        ) -> u32;
        pub fn uramsheg_store_close_up(
            store: *mut u8,
            store_length: usize,
            rows: usize,
            cols: usize,
            value: *mut u64,
        ) -> u32;
        pub fn uramsheg_accept(
            set: *const u8,
            set_length: usize,
            peak: f32,
            sigma: f32,
            ratio: f32,
            low: f32,
            high: f32,
            rows: usize,
            cols: usize,
            octave: usize,
            l0: *const f32,
            l0_length: usize,
            l1: *const f32,
            l1_length: usize,
            l2: *const f32,
            l2_length: usize,
            l3: *const f32,
            l3_length: usize,
            list: *const u8,
            list_length: usize,
            finding: *mut u32,
            value: *mut u64,
        ) -> u32;
    }
}

/// The longest side of a map.
pub(crate) const LONGEST: usize = 4096;

/// What a spot must pass. A NaN is refused; infinities, and a window whose low is above its high, are allowed.
#[derive(Clone, Copy, Debug, PartialEq)]
pub struct Thresholds {
    pub peak: f32,
    pub sigma: f32,
    /// The largest ratio of curvatures.
    pub ratio: f32,
    /// The closed window of sigma.
    pub low: f32,
    pub high: f32,
}

impl Thresholds {
    /// A refusal of these thresholds says which of them are NaN; any other stays as it is.
    pub(crate) fn told(self, refusal: Refusal) -> Refusal {
        let all = [self.peak, self.sigma, self.ratio, self.low, self.high];
        match refusal {
            Refusal::Thresholds { .. } => Refusal::Thresholds {
                nan: all.map(f32::is_nan),
            },
            other => other,
        }
    }
}

/// Four blurred levels of one map, or of one scene: each rows * cols floats by columns, pixel (row, col) at col * rows + row.
#[derive(Clone, Copy, Debug)]
pub struct Map<'a> {
    pub rows: usize,
    pub cols: usize,
    pub octave: usize,
    pub levels: [&'a [f32]; 4],
}

/// An answer's number, with the value beside it, as a result.
pub(crate) fn done<T>(number: u32, value: usize, answer: T) -> Result<T, Refusal> {
    if number == 0 {
        return Ok(answer);
    }
    let refusal = Refusal::from_number(number, value);
    Err(refusal.expect("libalp_c.a and this crate are of different versions: build both from one"))
}

/// Blurs a raw map, rows * cols floats by columns, into its four levels, each at the start of its own slice. A longer slice is taken, and its later floats
/// are kept. What the levels are, and how far a lost raw pixel reaches in each, stands in include/uramsheg.h.
pub fn levels(
    set: &[u8],
    rows: usize,
    cols: usize,
    octave: usize,
    raw: &[f32],
    levels: [&mut [f32]; 4],
) -> Result<(), Refusal> {
    let [l0, l1, l2, l3] = levels;
    // SAFETY: each pointer goes with its own slice's length, and the four that are written overlap nothing.
    let number = unsafe {
        raw::uramsheg_levels(
            set.as_ptr(),
            set.len(),
            rows,
            cols,
            octave,
            raw.as_ptr(),
            raw.len(),
            l0.as_mut_ptr(),
            l0.len(),
            l1.as_mut_ptr(),
            l1.len(),
            l2.as_mut_ptr(),
            l2.len(),
            l3.as_mut_ptr(),
            l3.len(),
        )
    };
    done(number, 0, ())
}

/// Lists the map's spots in `out`, 48 bytes each, by rising order key, at one key the minimum before the maximum. Answers the full number of spots;
/// where `out` is too short for them it holds as many whole records as fit, first ones first. Later bytes are kept.
pub fn detect(
    set: &[u8],
    thresholds: Thresholds,
    map: Map<'_>,
    out: &mut [u8],
) -> Result<usize, Refusal> {
    let [l0, l1, l2, l3] = map.levels;
    let mut value = 0;
    // SAFETY: each pointer goes with its own slice's length, and neither `out` nor `value` overlaps another.
    let number = unsafe {
        raw::uramsheg_detect(
            set.as_ptr(),
            set.len(),
            thresholds.peak,
            thresholds.sigma,
            thresholds.ratio,
            thresholds.low,
            thresholds.high,
            map.rows,
            map.cols,
            map.octave,
            l0.as_ptr(),
            l0.len(),
            l1.as_ptr(),
            l1.len(),
            l2.as_ptr(),
            l2.len(),
            l3.as_ptr(),
            l3.len(),
            out.as_mut_ptr(),
            out.len(),
            &mut value,
        )
    };
    done(number, value as usize, value as usize).map_err(|refusal| thresholds.told(refusal))
}

/// Sizes the records of a list found on a map of rows by cols, 60 bytes each, in the list's order, and gives each its home pixel, the one nearest to its
/// place, a half to the larger. Answers their number. Later bytes are kept.
pub fn join(
    set: &[u8],
    rows: usize,
    cols: usize,
    list: &[u8],
    out: &mut [u8],
) -> Result<usize, Refusal> {
    let mut value = 0;
    // SAFETY: each pointer goes with its own slice's length, and neither `out` nor `value` overlaps another.
    let number = unsafe {
        raw::uramsheg_join(
            set.as_ptr(),
            set.len(),
            rows,
            cols,
            list.as_ptr(),
            list.len(),
            out.as_mut_ptr(),
            out.len(),
            &mut value,
        )
    };
    done(number, value as usize, value as usize)
}

/// Sizes the records of an old list, from before there were displacements: of 40 bytes each, with 52 for each in `out`, in the list's order. A size and a home
/// pixel are those that `join` gives; an `OldSpot` has no displacement, and none is made up. Answers their number. Later bytes are kept.
///
/// A list's length alone does not say which kind it is: six old records are as long as five new ones.
pub fn join_old(
    set: &[u8],
    rows: usize,
    cols: usize,
    list: &[u8],
    out: &mut [u8],
) -> Result<usize, Refusal> {
    let mut value = 0;
    // SAFETY: each pointer goes with its own slice's length, and neither `out` nor `value` overlaps another.
    let number = unsafe {
        raw::uramsheg_join_old(
            set.as_ptr(),
            set.len(),
            rows,
            cols,
            list.as_ptr(),
            list.len(),
            out.as_mut_ptr(),
            out.len(),
            &mut value,
        )
    };
    done(number, value as usize, value as usize)
}

/// The corrected sigma of a spot with these centre samples, this sigma and this polarity; where it has none, the refusal says why.
pub fn correct(set: &[u8], samples: [f32; 4], sigma: f32, is_max: bool) -> Result<f32, Refusal> {
    let [s0, s1, s2, s3] = samples;
    let (mut corrected, mut cause) = (0.0, 0);
    // SAFETY: the pointer goes with the slice's own length, and neither `corrected` nor `cause` overlaps another.
    let number = unsafe {
        raw::uramsheg_correct(
            set.as_ptr(),
            set.len(),
            s0,
            s1,
            s2,
            s3,
            sigma,
            is_max,
            &mut corrected,
            &mut cause,
        )
    };
    done(number, cause as usize, corrected)
}

/// How many octaves a map of these sides has, 0 to 6.
pub fn octave_count(rows: usize, cols: usize) -> u32 {
    raw::uramsheg_octave_count(rows, cols)
}

/// Every second pixel of every second column of a level. Answers the new rows and cols, each half the old rounded down. Later floats are kept.
pub fn downsample(
    rows: usize,
    cols: usize,
    level: &[f32],
    out: &mut [f32],
) -> Result<(usize, usize), Refusal> {
    let (mut half_rows, mut half_cols) = (0, 0);
    // SAFETY: each pointer goes with its own slice's length, and what is written overlaps nothing.
    let number = unsafe {
        raw::uramsheg_downsample(
            rows,
            cols,
            level.as_ptr(),
            level.len(),
            out.as_mut_ptr(),
            out.len(),
            &mut half_rows,
            &mut half_cols,
        )
    };
    done(number, 0, (half_rows as usize, half_cols as usize))
}

/// Whether a set record is good.
pub fn check_set(set: &[u8]) -> Result<(), Refusal> {
    // SAFETY: the pointer goes with the slice's own length.
    let number = unsafe { raw::uramsheg_set_check(set.as_ptr(), set.len()) };
    done(number, 0, ())
}

/// The four levels of a raw map.
pub fn four_levels(
    set: &[u8],
    rows: usize,
    cols: usize,
    octave: usize,
    raw: &[f32],
) -> Result<[Vec<f32>; 4], Refusal> {
    // a map whose sides say another length is refused before any room is looked at
    let mut four = [0; 4].map(|_| vec![0.0; raw.len()]);
    let made = levels(
        set,
        rows,
        cols,
        octave,
        raw,
        four.each_mut().map(Vec::as_mut_slice),
    );
    made.map(|()| four)
}

/// The bytes of the list that a detection gives, in as much room as the list needs.
pub(crate) fn list(
    mut detect: impl FnMut(&mut [u8]) -> Result<usize, Refusal>,
) -> Result<Vec<u8>, Refusal> {
    let mut bytes = Vec::new();
    let mut room = 1024;
    loop {
        bytes.resize(room * SPOT_BYTES, 0);
        let found = detect(&mut bytes)?;
        if found <= room {
            bytes.truncate(found * SPOT_BYTES);
            return Ok(bytes);
        }
        room = found;
    }
}

/// The spots of a list.
pub(crate) fn read(list: &[u8]) -> Vec<Spot> {
    list.as_chunks().0.iter().map(Spot::from_record).collect()
}

/// The spots of a list that was found on the map, each with its size.
pub(crate) fn sized(set: &[u8], map: Map<'_>, list: &[u8]) -> Result<Vec<SizedSpot>, Refusal> {
    let mut sized = vec![0; list.len() / SPOT_BYTES * SIZED_BYTES];
    join(set, map.rows, map.cols, list, &mut sized)?;
    let records = sized.as_chunks().0;
    Ok(records.iter().map(SizedSpot::from_record).collect())
}

/// The map's spots.
pub fn spots(set: &[u8], thresholds: Thresholds, map: Map<'_>) -> Result<Vec<Spot>, Refusal> {
    list(|out| detect(set, thresholds, map, out)).map(|bytes| read(&bytes))
}

/// The map's spots, each with its size and its home pixel, the one nearest to its place.
pub fn sized_spots(
    set: &[u8],
    thresholds: Thresholds,
    map: Map<'_>,
) -> Result<Vec<SizedSpot>, Refusal> {
    let bytes = list(|out| detect(set, thresholds, map, out))?;
    sized(set, map, &bytes)
}
