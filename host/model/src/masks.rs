//! Cover mask and SAD mask (paper 01, 'Masks and class'): the stated float operations, left to right, then a floor held to 255.

use crate::entry::Entry;
use crate::modulo::wrapped;
use crate::shape::Shape;

/// The two scales.
#[derive(Clone, Copy)]
pub struct Settings {
    pub cover: f64,
    pub sad: f64,
}

impl Settings {
    pub fn new(cover: i32, sad_scale: f64) -> Self {
        Self { cover: f64::from(cover) / 100.0, sad: sad_scale }
    }
}

fn capped_floor(value: f64) -> u8 {
    value.floor().min(255.0) as u8
}

/// What is covered of a cell of the field: an eighth of the 3 by 3 sum about it, at most the area.
fn covered(shape: &Shape, grid: &[i32], x: usize, y: usize) -> i32 {
    let stride = shape.packed_width() + 2;
    let sum: i64 =
        (y..y + 3).flat_map(|row| &grid[row * stride + x..row * stride + x + 3]).map(|&c| i64::from(c)).sum();
    (wrapped(sum) >> 3).min(shape.area())
}

pub fn cover_mask(shape: &Shape, settings: Settings, grid: &[i32], mask: &mut [u8]) {
    let (width, height) = (shape.packed_width(), shape.packed_height());
    let area = f64::from(shape.area());
    for y in 0..height {
        for x in 0..width {
            let open = f64::from(shape.area() - covered(shape, grid, x, y));
            mask[y * width + x] = capped_floor(open * settings.cover * 256.0 / area);
        }
    }
}

/// Edges repeat as in planes.
pub fn sad_mask(shape: &Shape, settings: Settings, set: &[u8], mask: &mut [u8]) {
    let (width, height) = (shape.packed_width(), shape.packed_height());
    let area = f64::from(shape.area());
    for y in 0..height {
        for x in 0..width {
            let sad = Entry::at(set, shape.shown_block(x, y)).sad;
            mask[y * width + x] = capped_floor(f64::from(4 * sad) * settings.sad / area * 255.0);
        }
    }
}
