//! A shape, its limits and what follows from it (paper 01, 'Record and shape', and the sizes under 'Refused calls').

/// What a shape says, in the order of `include/unit.h`.
#[derive(Clone, Copy, PartialEq, Eq, Debug, Default)]
#[repr(C)]
pub struct Shape {
    pub flags: i32,
    pub block_w: i32,
    pub block_h: i32,
    pub pel: i32,
    pub width: i32,
    pub height: i32,
    pub overlap_x: i32,
    pub overlap_y: i32,
    pub grid_w: i32,
    pub grid_h: i32,
    pub selector: i32,
}

/// One direction of a shape.
#[derive(Clone, Copy)]
pub struct Axis {
    pub block: i32,
    pub overlap: i32,
    pub grid: i32,
    pub picture: i32,
}

impl Axis {
    /// An axis whose blocks just cover its picture, or leave `rest` of it uncovered.
    pub fn covering(block: i32, overlap: i32, grid: i32, rest: i32) -> Self {
        let bare = Self { block, overlap, grid, picture: 1 };
        Self { picture: (bare.reach() + rest).clamp(1, 65535), ..bare }
    }

    fn accepted(self) -> bool {
        (1..=256).contains(&self.block)
            && 0 <= self.overlap
            && self.overlap < self.block
            && (1..=1024).contains(&self.grid)
            && (1..=65535).contains(&self.picture)
    }

    pub const fn step(self) -> i32 {
        self.block - self.overlap
    }

    /// How far the blocks reach.
    pub const fn reach(self) -> i32 {
        self.step() * self.grid + self.overlap
    }

    /// W or H: one more than the grid where its blocks end before the picture does.
    pub const fn cells(self) -> i32 {
        if self.reach() < self.picture { self.grid + 1 } else { self.grid }
    }
}

impl Shape {
    /// The shape of two axes; its payloads have both halves, and its selector is 0.
    pub const fn of_axes(x: Axis, y: Axis, pel: i32) -> Self {
        Self {
            flags: 3,
            block_w: x.block,
            block_h: y.block,
            pel,
            width: x.picture,
            height: y.picture,
            overlap_x: x.overlap,
            overlap_y: y.overlap,
            grid_w: x.grid,
            grid_h: y.grid,
            selector: 0,
        }
    }

    pub const fn from_fields(f: [i32; 11]) -> Self {
        let [flags, block_w, block_h, pel, width, height, overlap_x, overlap_y, grid_w, grid_h, selector] = f;
        Self { flags, block_w, block_h, pel, width, height, overlap_x, overlap_y, grid_w, grid_h, selector }
    }

    pub const fn fields(&self) -> [i32; 11] {
        let Self { flags, block_w, block_h, pel, width, height, overlap_x, overlap_y, grid_w, grid_h, selector } =
            *self;
        [flags, block_w, block_h, pel, width, height, overlap_x, overlap_y, grid_w, grid_h, selector]
    }

    pub const fn x(&self) -> Axis {
        Axis { block: self.block_w, overlap: self.overlap_x, grid: self.grid_w, picture: self.width }
    }

    pub const fn y(&self) -> Axis {
        Axis { block: self.block_h, overlap: self.overlap_y, grid: self.grid_h, picture: self.height }
    }

    /// Flags and selector are any i32.
    pub fn accepted(&self) -> bool {
        self.x().accepted() && self.y().accepted() && (1..=64).contains(&self.pel)
    }
}

/// What follows from an accepted shape.
impl Shape {
    /// n.
    pub const fn blocks(&self) -> usize {
        (self.grid_w * self.grid_h) as usize
    }

    pub const fn area(&self) -> i32 {
        self.block_w * self.block_h
    }

    /// W.
    pub const fn packed_width(&self) -> usize {
        self.x().cells() as usize
    }

    /// H.
    pub const fn packed_height(&self) -> usize {
        self.y().cells() as usize
    }

    /// The bytes of a set.
    pub const fn set_size(&self) -> usize {
        8 * self.blocks()
    }

    /// The cells of a grid, its last the trash.
    pub const fn grid_size(&self) -> usize {
        (self.packed_width() + 2) * (self.packed_height() + 2) + 1
    }

    /// The cells of a plane, and the bytes of a mask.
    pub const fn plane_size(&self) -> usize {
        self.packed_width() * self.packed_height()
    }

    pub const fn has_backward(&self) -> bool {
        self.flags & 1 != 0
    }

    pub const fn has_forward(&self) -> bool {
        self.flags & 2 != 0
    }

    /// The block that a cell of planes and masks shows: past the last column or row the last is repeated.
    pub const fn shown_block(&self, x: usize, y: usize) -> usize {
        let (columns, rows) = (self.grid_w as usize, self.grid_h as usize);
        let column = if x < columns { x } else { columns - 1 };
        let row = if y < rows { y } else { rows - 1 };
        row * columns + column
    }
}

/// The table's size.
pub const TABLE: usize = 511;

/// The nine least sizes of a session's buffers and the mask's, in elements, in the order in which they are lent.
pub const fn sizes(shape: &Shape) -> [usize; 10] {
    let (set, blocks, plane) = (shape.set_size(), shape.blocks(), shape.plane_size());
    [set, set, TABLE, shape.grid_size(), plane, plane, blocks, blocks, crate::history::SLOT, plane]
}
