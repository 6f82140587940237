//! One case: a function with its whole input.

use crate::maps::Levels;
use crate::partners::Kind;
use crate::sets::Set;

/// A set, thresholds, and a map with its octave.
#[derive(Clone, Debug)]
pub struct Scene {
    pub set: Set,
    pub thresholds: [f32; 5],
    pub rows: usize,
    pub cols: usize,
    pub octave: usize,
    pub levels: Levels,
}

/// A raw map by columns, and the octave that its levels are of.
#[derive(Clone, Debug)]
pub struct Raw {
    pub rows: usize,
    pub cols: usize,
    pub octave: usize,
    pub pixels: Vec<f32>,
}

/// What a feed of columns is started with, or a whole scene given, beside its pixels and what it is lent.
#[derive(Clone, Debug)]
pub struct Start {
    pub record: Vec<u8>,
    pub thresholds: [f32; 5],
    pub rows: usize,
    pub cols: usize,
    pub octave: usize,
}

/// A feed: its start, none where the state is forged, and what its state and its ring hold before it.
#[derive(Clone, Debug)]
pub struct Feed {
    pub start: Option<Start>,
    pub state: Vec<u8>,
    pub ring: Levels,
}

/// A column given to one of the feeds, with so many bytes of the state and so many floats of each slice of the ring lent; again with the next room, each
/// byte filled with `fill` first, while it is refused for its room.
#[derive(Clone, Debug)]
pub struct Given {
    pub feed: usize,
    pub columns: Levels,
    pub state: usize,
    pub ring: [usize; 4],
    pub rooms: Vec<usize>,
    pub fill: u8,
}

/// What a desk asks of a slot, or a run from it.
#[derive(Clone, Debug)]
pub enum Ask {
    Claim {
        desk: usize,
    },
    Write {
        desk: usize,
        record: Vec<u8>,
    },
    Release {
        desk: usize,
    },
    /// Detection under the slot's set, not the scene's own, into `room` bytes, each filled with `fill` first.
    Run {
        scene: Scene,
        room: usize,
        fill: u8,
    },
}

impl Ask {
    /// The desk that asks; a run has none.
    pub fn desk(&self) -> Option<usize> {
        match self {
            Ask::Claim { desk } | Ask::Write { desk, .. } | Ask::Release { desk } => Some(*desk),
            Ask::Run { .. } => None,
        }
    }

    /// The same asked by another desk.
    pub fn by(mut self, other: usize) -> Ask {
        match &mut self {
            Ask::Claim { desk } | Ask::Write { desk, .. } | Ask::Release { desk } => *desk = other,
            Ask::Run { .. } => {}
        }
        self
    }
}

/// A call about a slot of a table of which so many bytes are lent.
#[derive(Clone, Debug)]
pub struct Asked {
    pub lent: usize,
    pub slot: usize,
    pub ask: Ask,
}

/// What is asked of a store; sides are rows and cols.
#[derive(Clone, Debug)]
pub enum Keep {
    Clear,
    Add {
        sides: (usize, usize),
        spot: Vec<u8>,
    },
    Strike {
        sides: (usize, usize),
        slot: usize,
    },
    CloseUp {
        sides: (usize, usize),
    },
}

impl Keep {
    /// The record that is added; of the other calls no bytes.
    pub fn spot(&self) -> &[u8] {
        match self {
            Keep::Add { spot, .. } => spot,
            _ => &[],
        }
    }
}

/// A call on a store of which so many bytes are lent. Before it the bits of one of its bytes are turned, and turned back where it is refused.
#[derive(Clone, Debug)]
pub struct Keeping {
    pub lent: usize,
    pub spoilt: Option<(usize, u8)>,
    pub keep: Keep,
}

/// One input to one function.
#[derive(Clone, Debug)]
pub enum Case {
    /// The list program's standard input.
    List { input: Vec<u8> },
    /// Detection into `room` bytes, each filled with `fill` first.
    Detect { scene: Scene, room: usize, fill: u8 },
    /// The join of a list into `room` bytes, or of an old list by the entry of its own.
    Join {
        old: bool,
        set: Set,
        rows: usize,
        cols: usize,
        list: Vec<u8>,
        room: usize,
        fill: u8,
    },
    /// Detection, then the join of what it listed.
    Sized { scene: Scene },
    /// Detection, then the old lists' join of what it listed, each record cut to its first 40 bytes.
    OldSized { scene: Scene },
    /// One correction.
    Correct {
        set: Set,
        samples: [f32; 4],
        sigma: f32,
        is_max: bool,
    },
    /// The number of octaves of an image.
    Octaves { rows: usize, cols: usize },
    /// Half the rows and cols into `room` floats, each filled with `fill` first.
    Downsample {
        rows: usize,
        cols: usize,
        level: Vec<f32>,
        room: usize,
        fill: f32,
    },
    /// The set reader.
    Reader { bytes: Vec<u8> },
    /// The levels of a raw map under a set's record into four buffers of `rooms` floats, those of the k-th filled with `fill` + k first.
    Levels {
        record: Vec<u8>,
        raw: Raw,
        rooms: [usize; 4],
        fill: f32,
    },
    /// The levels of a raw map, then detection on them, then the join of what it listed; the scene has no levels yet.
    FromRaw { scene: Scene, pixels: Vec<f32> },
    /// Feeds started one after another, then columns given to them.
    Fed { feeds: Vec<Feed>, given: Vec<Given> },
    /// A whole scene by tiles: with four slices of `slices` floats, the k-th filled by the pattern of `fill` + k first, and `rooms` bytes, each filled with the
    /// lowest of `fill`; again with the next room while it is refused for its room, the slices as they were left.
    Tiled {
        given: Start,
        levels: Levels,
        slices: [usize; 4],
        rooms: Vec<usize>,
        fill: u32,
    },
    /// Calls on a table one after another; it stands in room for a longer one.
    Desks { table: Vec<u8>, calls: Vec<Asked> },
    /// Calls on a store one after another; it stands in room for a longer one. With a scene the spots that detection lists of it are added first, and what the
    /// last call has closed up is joined.
    Stores {
        scene: Option<Scene>,
        store: Vec<u8>,
        calls: Vec<Keeping>,
    },
    /// What detection lists of a scene, and of maps related to it; then lists of a kind made of the scene's own, each read beside its map.
    Partners {
        scene: Scene,
        related: Vec<Scene>,
        kind: Kind,
        seed: u64,
    },
    /// An inner function on words.
    Inner {
        function: &'static str,
        set: Set,
        words: Vec<f32>,
    },
}

impl Scene {
    /// The list program's input for this scene.
    pub fn input(&self) -> Vec<u8> {
        let mut input = self.set.record().to_vec();
        for value in self.thresholds {
            input.extend(value.to_le_bytes());
        }
        for value in [self.rows, self.cols, self.octave] {
            input.extend((value as u32).to_le_bytes());
        }
        for value in self.levels.iter().flatten() {
            input.extend(value.to_le_bytes());
        }
        input
    }
}
