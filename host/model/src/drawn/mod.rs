//! Inputs drawn from a seed: at the limits, beside them, and between.

mod buffers;
mod calls;
mod counts;
mod entries;
mod gestures;
mod moves;
mod payloads;
mod shapes;

pub use buffers::{buffers, filled, lengths};
pub use calls::{Mix, call, list, put, time};
pub use counts::counts;
pub use entries::{component, entries, entry, luma, sad, set};
pub use gestures::{Gestures, gesture};
pub use moves::{GATHERINGS, Gathering, MOVES};
pub use payloads::{damaged, damaged_pair, pair, payload, payload_of};
pub use shapes::{axis, bad_shape, limits, of_grid, shape};
