//! The version: this crate's and the archive's, each 65536 × major + 256 × minor + patch.

use crate::raw;

/// This crate's. A program does not link with an archive of another major or minor.
pub const VERSION: u32 = 65_536 * number(env!("CARGO_PKG_VERSION_MAJOR"))
    + 256 * number(env!("CARGO_PKG_VERSION_MINOR"))
    + number(env!("CARGO_PKG_VERSION_PATCH"));

const fn number(text: &str) -> u32 {
    match u32::from_str_radix(text, 10) {
        Ok(number) => number,
        Err(_) => panic!("a part of the version is no number"),
    }
}

/// The archive's.
pub fn version() -> u32 {
    raw::version()
}
