//! The calls over two vector sets that are yours: 8 bytes to an entry, y and x (i16), sad (24 bits), luma, little-endian.
//!
//! [`sizes`](crate::sizes) gives the least length of each slice; longer ones keep their surplus.

use crate::error::Error;
use crate::raw;
use crate::types::{FieldShape, LumaTable, SceneLimits, Side};

/// Renews both sets by a payload. Refused by [`Error::ForwardHalf`] with flag bit 0 set, the backward set is new.
pub fn update(shape: FieldShape, payload: &[u8], backward: &mut [u8], forward: &mut [u8]) -> Result<(), Error> {
    Error::check(raw::update(shape, payload, backward, forward))
}

/// The average luma of each block.
pub fn avg_luma(
    shape: FieldShape,
    backward: &[u8],
    forward: &[u8],
    table: &LumaTable,
    averages: &mut [u8],
) -> Result<(), Error> {
    Error::check(raw::avg_luma(shape, backward, forward, table, averages))
}

/// The two planes of a side's vectors.
pub fn pack(
    shape: FieldShape,
    side: Side,
    backward: &[u8],
    forward: &[u8],
    xs: &mut [u16],
    ys: &mut [u16],
) -> Result<(), Error> {
    Error::check(raw::pack(shape, side.number(), backward, forward, xs, ys))
}

/// The map of a side's scores at these averages.
pub fn quality_map(
    shape: FieldShape,
    side: Side,
    limits: SceneLimits,
    backward: &[u8],
    forward: &[u8],
    averages: &[u8],
    map: &mut [u8],
) -> Result<(), Error> {
    Error::check(raw::quality_map(shape, side.number(), limits, backward, forward, averages, map))
}

/// The class, 0 to 3, of a side's scores at these averages.
pub fn quality(
    shape: FieldShape,
    side: Side,
    limits: SceneLimits,
    backward: &[u8],
    forward: &[u8],
    averages: &[u8],
) -> Result<u32, Error> {
    let class = raw::quality(shape, side.number(), limits, backward, forward, averages);
    Error::check(class.number)?;
    Ok(class.value)
}

/// The cover mask of a side's vectors at a time (256 is a whole vector); `cover` is in hundredths. The scratch then holds the grid.
#[allow(clippy::too_many_arguments)]
pub fn cover_mask(
    shape: FieldShape,
    side: Side,
    backward: &[u8],
    forward: &[u8],
    cover: i32,
    sad_scale: f64,
    time: i32,
    scratch: &mut [i32],
    mask: &mut [u8],
) -> Result<(), Error> {
    Error::check(raw::cover_mask(shape, side.number(), backward, forward, cover, sad_scale, time, scratch, mask))
}

/// The SAD mask of a side's vectors.
pub fn sad_mask(
    shape: FieldShape,
    side: Side,
    backward: &[u8],
    forward: &[u8],
    cover: i32,
    sad_scale: f64,
    mask: &mut [u8],
) -> Result<(), Error> {
    Error::check(raw::sad_mask(shape, side.number(), backward, forward, cover, sad_scale, mask))
}
