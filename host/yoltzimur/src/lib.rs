//! A safe crate over the proved library of a linked picture unit.
//!
//! The work is done by `libunit.a`, whose every function is proved to meet its contract: it ends, stays within the slices that it
//! is lent, and answers and leaves what its definition says. This crate is plain Rust over those proved exports, tested and not
//! itself proved. It adds ownership: [`Session`] holds the nine buffers of a touch-up session, and the functions of [`field`] take
//! slices of yours. A refused call is an [`Error`]; nothing here panics. [`Gestures`] hands out the numbers by which one undo takes several
//! puts back. [`payload`], [`VectorData::bytes`] and [`BlockVector::write`] write the bytes that calls read, and [`constants`] has the
//! numbers of the library by their names.
//!
//! The thread that calls needs room on its stack: less than 76,000 bytes for a cover mask, less than 3,000 for every other call, and
//! what this crate takes on top. Where it has less, the program ends at the stack's guard page, as any Rust does that overflows its
//! stack: the archive's code touches each page of a frame in turn.
//!
//! `include/unit.h` in the repository is the manual: what each call checks, in which order, and what it leaves. Where a call is
//! refused, nothing is written, save as [`Error::ForwardHalf`] says.

#![deny(unsafe_code)]

mod bytes;
mod error;
pub mod field;
mod gesture;
#[allow(unsafe_code)]
pub mod raw;
mod room;
mod session;
mod types;
mod version;

pub use bytes::payload;
pub use error::Error;
pub use exports::constants;
pub use gesture::{Gesture, Gestures};
pub use session::Session;
pub use types::{
    BlockVector, Counts, FieldShape, LumaTable, SceneLimits, Side, Sizes, VectorData, VectorShape, sizes, vector_data,
};
pub use version::{VERSION, version};
