//! Moves that take blocks out of their places, for the scatter.

use crate::shape::{Axis, Shape};

/// Moves of a block of side 8 to either side: by less than a step, by one, and by more.
pub const MOVES: [i16; 13] = [-17, -16, -9, -8, -7, -1, 0, 1, 7, 8, 9, 16, 17];

/// Blocks of side 256 that each move to the grid's middle, and `past` it by as many pels: a cell there wraps.
#[derive(Clone, Copy)]
pub struct Gathering {
    pub step: i16,
    pub past: i16,
    pub grid_w: i32,
    pub grid_h: i32,
}

/// In the fast row, then at step 256.
pub const GATHERINGS: [Gathering; 3] = [
    Gathering { step: 128, past: 0, grid_w: 256, grid_h: 128 },
    Gathering { step: 128, past: 127, grid_w: 257, grid_h: 257 },
    Gathering { step: 256, past: 0, grid_w: 251, grid_h: 131 },
];

impl Gathering {
    pub fn shape(&self) -> Shape {
        let axis = |grid| Axis::covering(256, 256 - i32::from(self.step), grid, 0);
        Shape::of_axes(axis(self.grid_w), axis(self.grid_h), 1)
    }

    /// The vector of the block in the first column and row; from each to the next it is a step less.
    pub const fn first(&self) -> (i16, i16) {
        (self.to_middle(self.grid_w), self.to_middle(self.grid_h))
    }

    const fn to_middle(self, grid: i32) -> i16 {
        self.step * (grid / 2) as i16 + self.past
    }
}
