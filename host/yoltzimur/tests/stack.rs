//! A cover mask on a stack that is too small for it ends at the stack's guard page: the archive's code touches each page of its frame in turn.
//! For a take and a pool a smaller one is enough.

use std::env;
use std::process::Command;
use std::thread;

use yoltzimur::{Error, FieldShape, SceneLimits, Session, Side, field, payload};

/// Makes a run of the test the one that ends there.
const SMALL: &str = "YOLTZIMUR_TEST_SMALL_STACK";

/// One block, with both halves in a payload.
const SHAPE: FieldShape = FieldShape {
    flags: 3,
    block_w: 8,
    block_h: 8,
    pel: 1,
    width: 8,
    height: 8,
    overlap_x: 0,
    overlap_y: 0,
    grid_w: 1,
    grid_h: 1,
    selector: 0,
};

/// What a call answers in a thread with so many bytes of stack.
fn within(stack: usize, call: fn() -> Result<(), Error>) -> Result<(), Error> {
    thread::Builder::new().stack_size(stack).spawn(call).unwrap().join().unwrap()
}

fn masked() -> Result<(), Error> {
    field::cover_mask(SHAPE, Side::Backward, &[0; 8], &[0; 8], 100, 1.0, 0, &mut [0; 10], &mut [0; 1])
}

fn taken_and_pooled() -> Result<(), Error> {
    let bytes = payload(SHAPE, Some(&[7; 8]), Some(&[8; 8]))?;
    let mut s = Session::open(SHAPE, Side::Backward, SceneLimits::default(), 256, &[1; 511], 1)?;
    s.take(&bytes)?;
    s.pool(&bytes, &bytes)
}

#[test]
fn a_stack_with_room_is_enough() {
    assert_eq!(within(128 << 10, masked), Ok(()));
    assert_eq!(within(32 << 10, taken_and_pooled), Ok(()));
}

#[test]
fn a_stack_that_is_too_small_ends_at_its_guard_page() {
    if env::var_os(SMALL).is_some() {
        within(48 << 10, masked).unwrap();
        return;
    }
    let words = ["--exact", "a_stack_that_is_too_small_ends_at_its_guard_page", "--nocapture"];
    let ended = Command::new(env::current_exe().unwrap()).args(words).env(SMALL, "1").output().unwrap();
    let told = String::from_utf8_lossy(&ended.stderr);
    // Rust says so only where the fault is in the guard page.
    assert!(!ended.status.success() && told.contains("has overflowed its stack"), "{}: {told}", ended.status);
}
