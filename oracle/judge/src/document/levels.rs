//! The levels of a raw map, document 02's No. 3: the refusals in their order, then the published blur with 16 as its largest radius.

use crate::entries::LONGEST;
use crate::here::with;
use crate::whole::blurred::{self, Kernel};
use crate::{Answer, Logs, Map, Pass, Rules, Set, entries, whole};

/// Raw pixels by columns.
#[derive(Clone, Copy, Debug)]
pub struct RawMap<'a> {
    pub rows: usize,
    pub cols: usize,
    pub octave: usize,
    pub pixels: &'a [f32],
}

impl<'a> RawMap<'a> {
    fn base(self) -> (usize, usize, &'a [f32]) {
        (self.rows, self.cols, self.pixels)
    }
}

/// The refusals, the first that applies: 1, 2, 3, 4, 6.
fn refusal(good: bool, map: RawMap, rooms: [usize; 4]) -> Option<u32> {
    let RawMap {
        rows,
        cols,
        octave,
        pixels,
    } = map;
    if rows > LONGEST || cols > LONGEST {
        Some(1)
    } else if pixels.len() != rows * cols {
        Some(2)
    } else if octave > 5 {
        Some(3)
    } else if !good {
        Some(4)
    } else if rooms.iter().any(|&room| room < rows * cols) {
        Some(6)
    } else {
        None
    }
}

/// The four levels, each at the start of its buffer; what lies past them is kept.
pub fn levels(record: &[u8], map: RawMap, out: &mut [Vec<f32>; 4]) -> Result<(), u32> {
    let set = Set::from_record(record);
    let refused = refusal(set.is_some(), map, out.each_ref().map(Vec::len));
    match (refused, set) {
        (None, Some(set)) => {
            make(Logs::Steps, &set, map, [true; 4], out);
            Ok(())
        }
        (refused, _) => Err(refused.unwrap_or(4)),
    }
}

/// The chosen levels under a good set, with room for each.
pub fn make(logs: Logs, set: &Set, map: RawMap, chosen: [bool; 4], out: &mut [Vec<f32>; 4]) {
    with(Rules::Document, logs, set, || {
        blurred::levels(map.base(), map.octave, chosen, out)
    });
}

/// The kernel of a sigma.
pub fn gaussian(logs: Logs, sigma: f32) -> Kernel {
    with(Rules::Document, logs, &Set::t(), || {
        blurred::gaussian(sigma)
    })
}

/// The four kernels of an octave under a set.
pub fn kernels(logs: Logs, set: &Set, octave: usize) -> [Kernel; 4] {
    with(Rules::Document, logs, set, || blurred::kernels(octave))
}

/// The kernel that takes an octave's base to a target sigma, where the third sigma is this one.
pub fn kernel(logs: Logs, octave: usize, third: f32, target: f32) -> Kernel {
    let mut set = Set::t();
    set.sigmas = [target, target, third, target];
    let [first, ..] = kernels(logs, &set, octave);
    first
}

/// One level by a kernel given, its radius at most 16.
pub fn blur(kernel: &Kernel, map: RawMap) -> Vec<f32> {
    with(Rules::Document, Logs::Steps, &Set::t(), || {
        blurred::level(map.base(), kernel)
    })
}

/// Detection on a raw map by the whole published text, its blur with it; the map's four levels are the raw pixels and three empty ones.
pub fn detect_raw(rules: Rules, pass: Pass, set: &Set, map: Map, out: &mut [u8]) -> Answer {
    let spots = with(rules, Logs::Steps, set, || {
        whole::offered::detect(pass, map).1
    });
    entries::write_spots(&spots, out)
}
