//! Payloads: their number, and the sets after one (paper 01, 'Entries and update').

use crate::bytes::i32_at;
use crate::record::MAGIC;
use crate::shape::Shape;

/// At 0 stands 16, at 4 160 and at 8 what the shape has as its flags.
fn head_good(shape: &Shape, payload: &[u8]) -> bool {
    [(0, 16), (4, MAGIC), (8, shape.flags)].into_iter().all(|(at, value)| i32_at(payload, at) == Some(value))
}

/// 2n+1 at `at`, and n entries behind it.
fn half_good(shape: &Shape, payload: &[u8], at: usize) -> bool {
    i32_at(payload, at) == Some(2 * shape.blocks() as i32 + 1) && payload.len() >= at + 4 + shape.set_size()
}

/// The places of the halves: the forward one doesn't move when the backward one is not flagged.
pub const BACKWARD: usize = 64;

pub const fn forward_place(shape: &Shape) -> usize {
    68 + 8 * shape.blocks()
}

/// 4, 5, 6 or 0, of an accepted shape.
pub fn payload_number(shape: &Shape, payload: &[u8]) -> u32 {
    if !head_good(shape, payload) {
        4
    } else if shape.has_backward() && !half_good(shape, payload, BACKWARD) {
        5
    } else if shape.has_forward() && !half_good(shape, payload, forward_place(shape)) {
        6
    } else {
        0
    }
}

/// Copies what the payload's number leaves to copy: each flagged half, or after 6 the backward one alone.
pub fn copy(shape: &Shape, payload: &[u8], backward: &mut [u8], forward: &mut [u8]) -> u32 {
    let number = payload_number(shape, payload);
    let size = shape.set_size();
    if matches!(number, 0 | 6) && shape.has_backward() {
        backward[..size].copy_from_slice(&payload[BACKWARD + 4..][..size]);
    }
    if number == 0 && shape.has_forward() {
        forward[..size].copy_from_slice(&payload[forward_place(shape) + 4..][..size]);
    }
    number
}
