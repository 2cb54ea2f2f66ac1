//! Whole sums and products modulo 2^32.

/// A whole number modulo 2^32, read as signed.
pub const fn wrapped(whole: i64) -> i32 {
    whole as i32
}
