//! Seeded cases for the detector and its companions; they need nothing of the published text.

pub mod case;
pub mod causes;
pub mod deltas;
pub mod desks;
pub mod edges;
pub mod families;
pub mod feeds;
pub mod homes;
pub mod levels;
mod limits;
pub mod maps;
mod mirrored;
pub mod odd;
pub mod old;
mod overshoot;
pub mod partners;
pub mod random;
pub mod records;
mod rounding;
pub mod scenes;
pub mod sets;
pub mod stores;
mod turning;
pub mod words;

pub use case::{Ask, Asked, Case, Feed, Given, Keep, Keeping, Raw, Scene, Start};
pub use edges::{Knob, turn};
pub use families::{FAMILIES, expand};
pub use sets::Set;
