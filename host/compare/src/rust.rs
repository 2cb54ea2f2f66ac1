//! The unchanged Rust on what an input lends.

use std::cell::Cell;
use std::panic::{AssertUnwindSafe, catch_unwind, set_hook, take_hook};

use model::shape::Shape;
use oracle::inputs::field_shape;
use oracle::smooth::{VectorField, entries};

pub use oracle::inputs::{scene_limits, size};

/// A field of an accepted shape, from sets' bytes that may be longer.
pub fn field(shape: &Shape, backward: &[u8], forward: &[u8]) -> VectorField {
    let size = shape.set_size();
    VectorField::from_sets(field_shape(shape), entries(&backward[..size]), entries(&forward[..size]))
}

thread_local! {
    static RUNNING: Cell<bool> = const { Cell::new(false) };
}

/// Runs the Rust; a stop of it within the domain is a difference too.
pub fn ran<T>(run: impl FnOnce() -> T) -> Result<T, String> {
    RUNNING.set(true);
    let out = catch_unwind(AssertUnwindSafe(run)).map_err(|_| String::from("the Rust stopped"));
    RUNNING.set(false);
    out
}

/// From now on a stop of the Rust prints nothing of its own.
pub fn quiet() {
    let usual = take_hook();
    set_hook(Box::new(move |stop| {
        if !RUNNING.get() {
            usual(stop);
        }
    }));
}
