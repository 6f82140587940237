//! The archive's calls on a table of sets: by the wrapper, and as C has them.

use crate::archive::thresholds_of;
use crate::{Call, Fed};
use cases::Scene;
use uramsheg::{Desk, Map, Refusal, Table, raw};

/// The C function's answer.
pub fn called(table: &mut [u8], desk: usize, slot: usize, call: Call) -> u32 {
    let (start, length) = (table.as_mut_ptr(), table.len());
    // SAFETY: each pointer goes with its own slice's length, and the table overlaps nothing.
    unsafe {
        match call {
            Call::Claim => raw::uramsheg_desk_claim(start, length, desk, slot),
            Call::Write(record) => {
                let (record, bytes) = (record.as_ptr(), record.len());
                raw::uramsheg_desk_write(start, length, desk, slot, record, bytes)
            }
            Call::Release => raw::uramsheg_desk_release(start, length, desk, slot),
        }
    }
}

/// The wrapper's answer; a desk that is none it can't be given, and then it is the C function's.
pub fn wrapped(table: &mut [u8], desk: usize, slot: usize, call: Call) -> u32 {
    let named = match desk {
        1 => Desk::Daily,
        2 => Desk::Reprocessing,
        _ => return called(table, desk, slot, call),
    };
    let done = Table::from_bytes_mut(table).and_then(|table| match call {
        Call::Claim => table.claim(named, slot),
        Call::Write(record) => table.write(named, slot, record),
        Call::Release => table.release(named, slot),
    });
    done.err().map_or(0, Refusal::number)
}

/// The wrapper's answer to a run; beside a refusal it hands on no value.
pub fn wrapped_run(
    table: &[u8],
    slot: usize,
    scene: &Scene,
    levels: [&[f32]; 4],
    out: &mut [u8],
) -> Fed {
    let map = Map {
        rows: scene.rows,
        cols: scene.cols,
        octave: scene.octave,
        levels,
    };
    let thresholds = thresholds_of(scene.thresholds);
    let listed = Table::from_bytes(table).and_then(|table| table.run(slot, thresholds, map, out));
    let (number, value) = match listed {
        Ok(count) => (0, count as u64),
        Err(refusal) => (refusal.number(), 0),
    };
    Fed { number, value }
}

/// The C function's own answer to a run, its value another number before the call.
pub fn called_run(
    table: &[u8],
    slot: usize,
    scene: &Scene,
    levels: [&[f32]; 4],
    out: &mut [u8],
) -> Fed {
    let [peak, sigma, ratio, low, high] = scene.thresholds;
    let [l0, l1, l2, l3] = levels;
    let mut value = u64::MAX;
    // SAFETY: each pointer goes with its own slice's length, and what is written overlaps nothing.
    let number = unsafe {
        raw::uramsheg_desk_run(
            table.as_ptr(),
            table.len(),
            slot,
            peak,
            sigma,
            ratio,
            low,
            high,
            scene.rows,
            scene.cols,
            scene.octave,
            l0.as_ptr(),
            l0.len(),
            l1.as_ptr(),
            l1.len(),
            l2.as_ptr(),
            l2.len(),
            l3.as_ptr(),
            l3.len(),
            out.as_mut_ptr(),
            out.len(),
            &mut value,
        )
    };
    Fed { number, value }
}
