//! The vector record (paper 01, 'Record and shape').

use crate::bytes::i32_at;
use crate::shape::Shape;

/// What `vector_data` answers: a number, and beside 0 the fields at their places.
#[derive(Clone, Copy, PartialEq, Eq, Debug, Default)]
#[repr(C)]
pub struct Record {
    pub number: u32,
    pub flags: i32,
    pub block_w: i32,
    pub block_h: i32,
    pub width: i32,
    pub height: i32,
    pub grid_w: i32,
    pub grid_h: i32,
    pub marker: i32,
    pub selector: i32,
    pub delta: i32,
    pub overlap_x: i32,
    pub overlap_y: i32,
}

impl Record {
    /// The shape that a record gives: its marker is the shape's pel, and its delta is none of the shape's.
    pub const fn shape(&self) -> Shape {
        Shape {
            flags: self.flags,
            block_w: self.block_w,
            block_h: self.block_h,
            pel: self.marker,
            width: self.width,
            height: self.height,
            overlap_x: self.overlap_x,
            overlap_y: self.overlap_y,
            grid_w: self.grid_w,
            grid_h: self.grid_h,
            selector: self.selector,
        }
    }
}

/// The bytes of a record.
pub const RECORD: usize = 60;

/// What a record holds at 0.
pub const MAGIC: i32 = 160;

/// 1 where the record is short or not 160.
pub fn vector_data(data: &[u8]) -> Record {
    fields(data).unwrap_or(Record { number: 1, ..Record::default() })
}

fn fields(data: &[u8]) -> Option<Record> {
    if data.len() < RECORD || i32_at(data, 0)? != MAGIC {
        return None;
    }
    Some(Record {
        number: 0,
        flags: i32_at(data, 0x04)?,
        block_w: i32_at(data, 0x08)?,
        block_h: i32_at(data, 0x0C)?,
        marker: i32_at(data, 0x10)?,
        width: i32_at(data, 0x1C)?,
        height: i32_at(data, 0x20)?,
        overlap_x: i32_at(data, 0x24)?,
        overlap_y: i32_at(data, 0x28)?,
        grid_w: i32_at(data, 0x2C)?,
        grid_h: i32_at(data, 0x30)?,
        selector: i32_at(data, 0x34)?,
        delta: i32_at(data, 0x38)?,
    })
}
