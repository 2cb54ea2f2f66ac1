//! Vectors, sads and lumas at and between their ends.

use draw::Draw;

use crate::entry::Entry;
use crate::shape::{Axis, Shape};

/// A vector's component along an axis.
pub fn component(draw: &mut Draw, axis: Axis) -> i16 {
    let step = axis.step();
    let value = match draw.between(0, 6) {
        0 => draw.pick(&[-32768, -32767, 32767, 32766, -1, 0, 1]),
        1 => draw.between(-4, 4),
        2 => step * draw.between(-3, 3) + draw.between(-1, 1),
        3 => draw.pick(&[-1025, -1024, -1023, -1022, 1022, 1023, 1024, 1025]),
        4 | 5 => draw.between(-2 * step, 2 * step),
        _ => draw.between(-32768, 32767),
    };
    value.clamp(-32768, 32767) as i16
}

pub fn sad(draw: &mut Draw) -> i32 {
    let (any, small) = (draw.between(0, 0xFF_FFFF), draw.between(0, 4000));
    draw.pick(&[0, 1, 8, 16, 0xFF_FFFF, 8_421_504, 8_421_505, small, small, small, any])
}

pub fn luma(draw: &mut Draw) -> u8 {
    let any = draw.between(0, 255) as u8;
    draw.pick(&[0, 1, 255, any, any])
}

pub fn entry(draw: &mut Draw, shape: &Shape) -> Entry {
    Entry { x: component(draw, shape.x()), y: component(draw, shape.y()), sad: sad(draw), luma: luma(draw) }
}

/// The bytes of `count` entries.
pub fn entries(draw: &mut Draw, shape: &Shape, count: usize) -> Vec<u8> {
    (0..count).flat_map(|_| entry(draw, shape).bytes()).collect()
}

/// A set's bytes.
pub fn set(draw: &mut Draw, shape: &Shape) -> Vec<u8> {
    entries(draw, shape, shape.blocks())
}
