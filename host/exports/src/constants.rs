//! The constants of `include/unit.h`, under its names without `UNIT_`.

// Lengths and places in bytes, and what stands there.

/// A record has at least so many bytes.
pub const RECORD_LEN: usize = 60;
/// A record's first i32; a payload's second.
pub const RECORD_START: i32 = 160;
/// A payload's first i32.
pub const PAYLOAD_START: i32 = 16;
/// The bytes of a payload's three first i32.
pub const PAYLOAD_HEAD: usize = 12;
/// The place of a payload's backward half; the forward one is at 68 + 8n.
pub const PAYLOAD_BACKWARD: usize = 64;
/// An entry of a set.
pub const ENTRY_SIZE: usize = 8;
/// The luma table: one byte for each sum of two lumas.
pub const TABLE_LEN: usize = 511;
/// A step of the history.
pub const SLOT_SIZE: usize = 28;
/// The most slots of a history that are used.
pub const SLOTS_MOST: usize = 4096;

// The ends of ranges.

/// A block's sides, from 1.
pub const BLOCK_MOST: i32 = 256;
/// The pel, from 1.
pub const PEL_MOST: i32 = 64;
/// A picture's sides, from 1.
pub const PICTURE_MOST: i32 = 65_535;
/// A grid's sides, from 1.
pub const GRID_MOST: i32 = 1024;
pub const TIME_LEAST: i32 = -65_535;
pub const TIME_MOST: i32 = 65_535;
/// A cover, from 0.
pub const COVER_MOST: i32 = 1000;
/// A sad, from 0.
pub const SAD_MOST: i32 = 16_777_215;
/// A SAD scale, from 0.0.
pub const SAD_SCALE_MOST: f64 = 65_536.0;

// Single values.

/// Of a shape's flags: payloads have a backward half.
pub const FLAG_BACKWARD: i32 = 1;
/// The same: a forward half.
pub const FLAG_FORWARD: i32 = 2;
/// The time at which a vector moves by its whole length.
pub const TIME_WHOLE: i32 = 256;
/// A cover of 1.0.
pub const COVER_WHOLE: i32 = 100;
/// A component of 0 in a plane.
pub const PLANE_ZERO: u16 = 1024;
/// A map byte: the score is less than the limit zero.
pub const MAP_BELOW_ZERO: u8 = 255;
