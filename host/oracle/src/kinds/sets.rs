//! Sets whose entries differ in their vectors, their sads or their lumas alone.

use model::entry::Entry;

const ZERO: Entry = Entry { x: 0, y: 0, sad: 0, luma: 0 };

fn bytes(entries: impl Iterator<Item = Entry>) -> Vec<u8> {
    entries.flat_map(|entry| entry.bytes()).collect()
}

pub fn vectors(list: &[(i16, i16)]) -> Vec<u8> {
    bytes(list.iter().map(|&(x, y)| Entry { x, y, ..ZERO }))
}

pub fn sads(list: impl IntoIterator<Item = i32>) -> Vec<u8> {
    bytes(list.into_iter().map(|sad| Entry { sad, ..ZERO }))
}

pub fn lumas(list: impl IntoIterator<Item = u8>) -> Vec<u8> {
    bytes(list.into_iter().map(|luma| Entry { luma, ..ZERO }))
}

/// A zero entry, which repeats to a whole set of zeros.
pub fn zeros() -> Vec<u8> {
    ZERO.bytes().to_vec()
}
