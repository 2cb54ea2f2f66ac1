//! The packed planes (paper 01, 'Planes').

use std::ops::Range;

use crate::entry::Entry;
use crate::shape::{Axis, Shape};

/// A component of selector 0: held to the picture's sides.
fn held(axis: Axis, cell: usize, v: i32) -> i32 {
    let p = cell as i32 * axis.step();
    let (least, most) = (-p, axis.picture - p - axis.block);
    match v {
        _ if v < least => least,
        _ if v > most => most.max(0),
        _ => v,
    }
}

fn packed(axis: Axis, selector: i32, cell: usize, v: i32) -> u16 {
    let v = if selector == 0 { held(axis, cell, v) } else { v };
    (v + 1024) as u16
}

/// Both planes at (x, y).
pub fn at(shape: &Shape, set: &[u8], x: usize, y: usize) -> (u16, u16) {
    let entry = Entry::at(set, shape.shown_block(x, y));
    let (vx, vy) = (i32::from(entry.x), i32::from(entry.y));
    if vx.abs() > 1023 || vy.abs() > 1023 {
        return (1024, 1024);
    }
    (packed(shape.x(), shape.selector, x, vx), packed(shape.y(), shape.selector, y, vy))
}

fn write(shape: &Shape, set: &[u8], columns: Range<usize>, rows: Range<usize>, xs: &mut [u16], ys: &mut [u16]) {
    let width = shape.packed_width();
    for y in rows {
        for x in columns.clone() {
            (xs[y * width + x], ys[y * width + x]) = at(shape, set, x, y);
        }
    }
}

pub fn pack(shape: &Shape, set: &[u8], xs: &mut [u16], ys: &mut [u16]) {
    write(shape, set, 0..shape.packed_width(), 0..shape.packed_height(), xs, ys);
}

/// The cells that show a column or row of blocks: its own, and for the last one also those past it.
const fn showing(axis: Axis, at: usize) -> Range<usize> {
    if at + 1 == axis.grid as usize { at..axis.cells() as usize } else { at..at + 1 }
}

/// The plane cells of one block, up to four.
pub fn pack_block(shape: &Shape, set: &[u8], block: usize, xs: &mut [u16], ys: &mut [u16]) {
    let (column, row) = (block % shape.grid_w as usize, block / shape.grid_w as usize);
    write(shape, set, showing(shape.x(), column), showing(shape.y(), row), xs, ys);
}
