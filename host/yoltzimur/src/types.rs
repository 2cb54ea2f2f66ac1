//! The values that cross to the library, laid out as C has them, and the two calls that take no set.

use crate::constants::TABLE_LEN;
use crate::error::Error;
use crate::raw;

/// The shape of a vector field. Any values may be given; the library refuses those beyond its limits by [`Error::Shape`].
#[repr(C)]
#[derive(Clone, Copy, Debug, Default, PartialEq, Eq, Hash)]
pub struct FieldShape {
    /// Bit 0: payloads have a backward half; bit 1: a forward half.
    pub flags: i32,
    pub block_w: i32,
    pub block_h: i32,
    pub pel: i32,
    pub width: i32,
    pub height: i32,
    pub overlap_x: i32,
    pub overlap_y: i32,
    pub grid_w: i32,
    pub grid_h: i32,
    /// 0: planes keep vectors within the picture.
    pub selector: i32,
}

/// The limits that scores are compared with, any each; `blocks` is a share in hundredths.
#[repr(C)]
#[derive(Clone, Copy, Debug, Default, PartialEq, Eq, Hash)]
pub struct SceneLimits {
    pub blocks: i32,
    pub zero: i32,
    pub m1: i32,
    pub m2: i32,
    pub scene: i32,
}

/// What a class is made of, for the shown side: how many blocks count, and of those how many reach the limit `scene`, how many `m2`
/// and not `scene`, how many `m1` and neither of them.
#[repr(C)]
#[derive(Clone, Copy, Debug, Default, PartialEq, Eq, Hash)]
pub struct Counts {
    /// Blocks whose score is at least the limit `zero`.
    pub counted: u32,
    pub scene: u32,
    pub m2: u32,
    pub m1: u32,
}

#[repr(C)]
#[derive(Clone, Copy, Debug, Default, PartialEq, Eq, Hash)]
pub struct VectorShape {
    pub width: i32,
    pub height: i32,
}

/// The values of a vector record. They are not judged: a shape made of them may be refused.
#[repr(C)]
#[derive(Clone, Copy, Debug, Default, PartialEq, Eq, Hash)]
pub struct VectorData {
    pub flags: i32,
    pub block: VectorShape,
    pub shape: VectorShape,
    pub grid: VectorShape,
    /// The pel.
    pub marker: i32,
    pub selector: i32,
    pub delta: i32,
    pub overlap_x: i32,
    pub overlap_y: i32,
}

/// The least length of each buffer of a shape, in elements, and the sides of its planes and masks.
#[repr(C)]
#[derive(Clone, Copy, Debug, Default, PartialEq, Eq, Hash)]
pub struct Sizes {
    pub backward: usize,
    pub forward: usize,
    pub table: usize,
    /// Of a grid, and of the scratch of [`cover_mask`](crate::field::cover_mask).
    pub grid: usize,
    pub xs: usize,
    pub ys: usize,
    pub averages: usize,
    pub map: usize,
    /// Of one step; each further one takes as much.
    pub history: usize,
    pub mask: usize,
    /// W: the columns of a plane and of a mask.
    pub packed_width: usize,
    /// H: the rows of them.
    pub packed_height: usize,
}

/// One byte for each sum of two lumas.
pub type LumaTable = [u8; TABLE_LEN];

#[derive(Clone, Copy, Debug, PartialEq, Eq, Hash)]
pub enum Side {
    Backward,
    Forward,
}

impl Side {
    pub(crate) fn number(self) -> u32 {
        match self {
            Side::Backward => 1,
            Side::Forward => 2,
        }
    }
}

/// A block's vector, its sum of absolute differences (0 to 16,777,215) and its luma.
#[derive(Clone, Copy, Debug, Default, PartialEq, Eq, Hash)]
pub struct BlockVector {
    pub x: i16,
    pub y: i16,
    pub sad: i32,
    pub luma: u8,
}

/// The record that stands at the start of the bytes.
pub fn vector_data(data: &[u8]) -> Result<VectorData, Error> {
    let record = raw::vector_data(data);
    Error::check(record.number)?;
    Ok(record.values)
}

impl From<VectorData> for FieldShape {
    fn from(values: VectorData) -> FieldShape {
        raw::shape_of(raw::Record { number: 0, values })
    }
}

/// The least length of each buffer that calls of a shape are lent, and the sides of its planes and masks.
pub fn sizes(shape: FieldShape) -> Result<Sizes, Error> {
    let least = raw::sizes(shape);
    Error::check(least.number)?;
    Ok(least.sizes)
}
