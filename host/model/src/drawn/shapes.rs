//! Shapes and limits.

use draw::Draw;

use crate::session::Limits;
use crate::shape::{Axis, Shape};

/// Block sides and overlaps at and between their limits, `grid` blocks, a picture that ends about where they do.
pub fn axis(draw: &mut Draw, grid: i32) -> Axis {
    let any = draw.between(1, 256);
    let block = draw.pick(&[1, 2, 4, 8, 8, 16, 16, 32, 64, 127, 128, 129, 130, 255, 256, any, any, any]);
    let any = draw.between(0, block - 1);
    let overlap = draw.pick(&[0, 0, block - 1, block / 2, any]);
    let bare = Axis { block, overlap, grid, picture: 1 };
    let (end, anywhere) = (bare.reach(), draw.between(1, 65535));
    let picture = draw.pick(&[end, end, end + 1, end - 1, end + block, end - block, 1, 65535, anywhere]);
    Axis { picture: picture.clamp(1, 65535), ..bare }
}

/// An accepted shape whose grid has at most `most` blocks on each side.
pub fn shape(draw: &mut Draw, most: i32) -> Shape {
    let (grid_w, grid_h) = (draw.between(1, most), draw.between(1, most));
    of_grid(draw, grid_w, grid_h)
}

/// An accepted shape of so many blocks.
pub fn of_grid(draw: &mut Draw, grid_w: i32, grid_h: i32) -> Shape {
    let (x, y) = (axis(draw, grid_w), axis(draw, grid_h));
    let (any_pel, any) = (draw.between(1, 64), draw.any_i32());
    let flags = draw.pick(&[0, 1, 2, 3, 3, 3, 3, 7, -1, -2, -3, -4, i32::MIN, i32::MAX, any]);
    let pel = draw.pick(&[1, 1, 1, 2, 3, 4, 8, 63, 64, any_pel]);
    let selector = draw.pick(&[0, 0, 0, 1, 2, -1, i32::MIN, any]);
    Shape { flags, selector, ..Shape::of_axes(x, y, pel) }
}

/// An accepted shape with another value for one of its judged fields, nearly always one past the ends of its range.
pub fn bad_shape(draw: &mut Draw, shape: &Shape) -> Shape {
    let mut fields = shape.fields();
    let field = draw.pick(&[1, 2, 3, 4, 5, 6, 7, 8, 9]);
    let block = fields[if field == 7 { 2 } else { 1 }];
    let (least, most) = match field {
        1 | 2 => (1, 256),
        3 => (1, 64),
        4 | 5 => (1, 65535),
        6 | 7 => (0, block.saturating_sub(1)),
        _ => (1, 1024),
    };
    let any = draw.any_i32();
    fields[field] = draw.pick(&[least - 1, most.saturating_add(1), i32::MIN, i32::MAX, -least, any]);
    Shape::from_fields(fields)
}

/// Limits about the scores of drawn sads, in any order, and at the ends of i32.
pub fn limits(draw: &mut Draw) -> Limits {
    if draw.once_in(3) {
        return Limits { blocks: draw.between(-50, 200), ..Limits::USUAL };
    }
    let mut one = || {
        let (small, any) = (draw.between(-300, 6000), draw.any_i32());
        draw.pick(&[0, 1, small, small, small, any, i32::MIN, i32::MAX])
    };
    Limits::from_fields([one(), one(), one(), one(), one()])
}
