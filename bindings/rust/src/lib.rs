//! Uramsheg's detector for Rust. Every call ends, whatever it is given, and a refused call writes nothing, but for a scene's that is `Refusal::Full`; what each
//! promises is proved (docs/PROMISES.md). The layouts of sets, of records, of tables and of stores stand in include/uramsheg.h.

#[cfg(feature = "detector")]
mod accept;
#[cfg(feature = "detector")]
mod desks;
#[cfg(feature = "detector")]
mod detector;
#[cfg(feature = "detector")]
mod feed;
#[cfg(feature = "float")]
pub mod float;
mod missing;
mod owner;
mod refusal;
#[cfg(feature = "detector")]
mod scene;
mod slots;
mod spot;
#[cfg(feature = "detector")]
mod store;

#[cfg(feature = "detector")]
pub use accept::{Finding, accept};
#[cfg(feature = "detector")]
pub use desks::{SET_BYTES, Slot, TABLE_BYTES, TABLE_SLOTS, Table};
#[cfg(feature = "detector")]
#[doc(hidden)]
pub use detector::raw;
#[cfg(feature = "detector")]
pub use detector::{
    Map, Thresholds, check_set, correct, detect, downsample, four_levels, join, join_old, levels,
    octave_count, sized_spots, spots,
};
#[cfg(feature = "detector")]
pub use feed::{FEED_BYTES, Feed, RING_COLUMNS, Spots, feed_column, feed_start};
pub use missing::Missing;
pub use owner::{Desk, NotYours, Owner};
pub use refusal::Refusal;
#[cfg(feature = "detector")]
pub use scene::{
    SCENE_BYTES, SCENE_LONGEST, SceneSpot, TILE_LENGTH, TILE_STEP, scene, scene_spots, tile_count,
    tile_pixels,
};
pub use slots::{BadStore, NoSpot};
pub use spot::{
    OLD_SIZED_BYTES, OLD_SPOT_BYTES, OldSpot, SIZED_BYTES, SPOT_BYTES, SizedSpot, Spot,
};
#[cfg(feature = "detector")]
pub use store::{FREE_SLOT, Store};
