//! Two payloads for one shape: their number, and which entry of the two is kept (paper 02, 3/14).

use crate::entry::Entry;
use crate::shape::Shape;
use crate::update::{BACKWARD, forward_place, payload_number};

/// The first's 4, 5 or 6 where it is refused, else the second's number. Of an accepted shape.
pub fn pooled_number(shape: &Shape, first: &[u8], second: &[u8]) -> u32 {
    match payload_number(shape, first) {
        0 => payload_number(shape, second),
        number => number,
    }
}

/// The one of the smaller sad, 24 bits without a sign, and nothing else of them compared; at a tie the first.
pub const fn kept(first: Entry, second: Entry) -> Entry {
    if second.sad < first.sad { second } else { first }
}

/// Writes to a set what is kept of the entries at `at` of both payloads.
fn keep(shape: &Shape, first: &[u8], second: &[u8], at: usize, set: &mut [u8]) {
    for block in 0..shape.blocks() {
        kept(Entry::at(&first[at..], block), Entry::at(&second[at..], block)).put(set, block);
    }
}

/// Each flagged set gets what is kept of two payloads of which none is refused; the other stays.
pub fn pool(shape: &Shape, first: &[u8], second: &[u8], backward: &mut [u8], forward: &mut [u8]) {
    if shape.has_backward() {
        keep(shape, first, second, BACKWARD + 4, backward);
    }
    if shape.has_forward() {
        keep(shape, first, second, forward_place(shape) + 4, forward);
    }
}
