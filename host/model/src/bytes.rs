//! Numbers in bytes, little-endian (paper 01's first line).

/// The i32 at `at`, or none where the bytes end before it does.
pub fn i32_at(bytes: &[u8], at: usize) -> Option<i32> {
    bytes.get(at..)?.first_chunk().copied().map(i32::from_le_bytes)
}

/// The u32 at `at`, likewise.
pub fn u32_at(bytes: &[u8], at: usize) -> Option<u32> {
    i32_at(bytes, at).map(i32::cast_unsigned)
}
