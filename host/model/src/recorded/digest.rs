//! Digests of whole buffers: 7 at first, then for each byte (digest × 257 + byte + 1) modulo a prime below 2^55.

const MODULUS: u64 = 36_028_797_018_963_913;

pub fn digest(bytes: impl IntoIterator<Item = u8>) -> u64 {
    bytes.into_iter().fold(7, |digest, byte| (digest * 257 + u64::from(byte) + 1) % MODULUS)
}

/// Of u32, 4 bytes each, little-endian.
pub fn of_u32(values: &[u32]) -> u64 {
    digest(values.iter().flat_map(|value| value.to_le_bytes()))
}

pub fn of_i32(values: &[i32]) -> u64 {
    digest(values.iter().flat_map(|value| value.to_le_bytes()))
}

pub fn of_u16(values: &[u16]) -> u64 {
    digest(values.iter().flat_map(|value| value.to_le_bytes()))
}

pub fn of_u8(values: &[u8]) -> u64 {
    digest(values.iter().copied())
}
