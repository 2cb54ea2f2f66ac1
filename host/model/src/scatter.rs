//! The coverage grid by direct sums (paper 01, 'Scatter').

use crate::entry::Entry;
use crate::modulo::wrapped;
use crate::shape::{Axis, Shape};

/// How a block lies on an axis: its first cell's distance from its own, and its two parts.
struct Split {
    moved: i64,
    first: i64,
    second: i64,
}

fn split(axis: Axis, pel: i32, time: i32, component: i16) -> Split {
    let step = i64::from(axis.step());
    // Signed division truncates; the divisor of the floor is positive.
    let t = i64::from(time) * i64::from(component) / (256 * i64::from(pel));
    let q = t.div_euclid(step);
    let r = step * (q + 1) - t;
    Split { moved: q, first: r, second: i64::from(axis.block) - r }
}

/// The index of a cell; every cell outside the field is the trash, the last one.
fn index(shape: &Shape, x: i64, y: i64) -> usize {
    let (width, height) = (shape.packed_width() as i64, shape.packed_height() as i64);
    let inside = 0 <= x && x < width && 0 <= y && y < height;
    let place = if inside { (y + 1) * (width + 2) + x + 1 } else { (width + 2) * (height + 2) };
    place as usize
}

/// The four products of a block's entry and the cells that they are added to.
pub fn products(shape: &Shape, time: i32, block: usize, entry: Entry) -> [(usize, i64); 4] {
    let columns = shape.grid_w as usize;
    let (x, y) = (split(shape.x(), shape.pel, time, entry.x), split(shape.y(), shape.pel, time, entry.y));
    let cx = (block % columns) as i64 + x.moved;
    let cy = (block / columns) as i64 + y.moved;
    [
        (index(shape, cx, cy), y.first * x.first),
        (index(shape, cx + 1, cy), y.first * x.second),
        (index(shape, cx + 1, cy + 1), y.second * x.second),
        (index(shape, cx, cy + 1), x.first * y.second),
    ]
}

/// The plain scatter of a set, from zero: whole sums, taken modulo 2^32 at the end.
pub fn grid(shape: &Shape, time: i32, set: &[u8]) -> Vec<i32> {
    let mut sums = vec![0i64; shape.grid_size()];
    for block in 0..shape.blocks() {
        for (cell, product) in products(shape, time, block, Entry::at(set, block)) {
            sums[cell] += product;
        }
    }
    sums.into_iter().map(wrapped).collect()
}
