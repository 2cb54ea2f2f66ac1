//! The fields that are timed, and what is said of the machine they are timed on.

use std::fs;

use draw::Draw;
use model::drawn::{luma, payload};
use model::entry::Entry;
use model::session::Limits;
use model::shape::{Axis, Shape, TABLE};

use crate::clock::sampling;

pub const LIMITS: Limits = Limits::USUAL;
pub const PELS: [i32; 3] = [1, 3, 4];
pub const TIMES: [i32; 3] = [128, 256, 257];

/// Name, blocks across and down, block side, overlap.
pub type Size = (&'static str, i32, i32, i32, i32);

pub const SIZES: [Size; 4] = [
    ("240×135 of 8×8", 240, 135, 8, 0),
    ("120×68 of 16×16", 120, 68, 16, 0),
    ("120×68 of 16×16, overlap 4", 120, 68, 16, 4),
    ("1024×1024 of 8×8", 1024, 1024, 8, 0),
];

/// A field of moderate motion: vectors of up to 40 pixels, sads of up to 3,000, both sets whole.
pub struct Field {
    pub name: &'static str,
    pub shape: Shape,
    pub backward: Vec<u8>,
    pub forward: Vec<u8>,
    pub table: [u8; TABLE],
    pub averages: Vec<u8>,
    pub payload: Vec<u8>,
}

impl Field {
    pub fn new(size: Size, pel: i32) -> Self {
        let (name, grid_w, grid_h, block, overlap) = size;
        let axis = |grid| Axis::covering(block, overlap, grid, 0);
        let shape = Shape::of_axes(axis(grid_w), axis(grid_h), pel);
        let mut draw = Draw::new(81);
        let (backward, forward) = (set(&mut draw, &shape), set(&mut draw, &shape));
        let head = payload(&mut draw, &Shape { grid_w: 1, grid_h: 1, ..shape });
        let whole = whole(&head, &shape, [&backward, &forward]);
        let table = std::array::from_fn(|_| luma(&mut draw));
        let averages = draw.bytes(shape.blocks());
        Self { name, shape, backward, forward, table, averages, payload: whole }
    }

    /// The same with other vectors.
    pub fn with(&self, [backward, forward]: [Vec<u8>; 2]) -> Self {
        let payload = whole(&self.payload, &self.shape, [&backward, &forward]);
        Self { backward, forward, payload, averages: self.averages.clone(), ..*self }
    }
}

/// The first 64 bytes of a payload, with both halves behind them.
fn whole(head: &[u8], shape: &Shape, halves: [&[u8]; 2]) -> Vec<u8> {
    let mut bytes = head[..64].to_vec();
    for half in halves {
        bytes.extend((2 * shape.blocks() as i32 + 1).to_le_bytes());
        bytes.extend(half);
    }
    bytes
}

/// A set drawn anew for a field, with the sad of a given set at one block in 61.
pub fn another_set(first: &[u8], field: &Field, seed: u64) -> Vec<u8> {
    let mut drawn = set(&mut Draw::new(seed), &field.shape);
    for (entry, given) in drawn.chunks_mut(8).zip(first.chunks(8)).step_by(61) {
        entry[4..7].copy_from_slice(&given[4..7]);
    }
    drawn
}

fn set(draw: &mut Draw, shape: &Shape) -> Vec<u8> {
    let most = 40 * shape.pel;
    let mut one = || Entry {
        x: draw.between(-most, most) as i16,
        y: draw.between(-most, most) as i16,
        sad: draw.between(0, 3000),
        luma: draw.between(0, 255) as u8,
    };
    (0..shape.blocks()).flat_map(|_| one().bytes()).collect()
}

/// What is timed, where and how.
pub fn head() -> String {
    let text = fs::read_to_string("/proc/cpuinfo").unwrap_or_default();
    let named = text.lines().find_map(|line| line.strip_prefix("model name")?.split_once(": ").map(|(_, name)| name));
    format!(
        "# Speed

Ours beside the unchanged Rust on the same inputs, in one run: below 1 ours is faster. `host/README.md` says how to run it again.

Processor: {}. The Rust is built by {}, at -O for baseline x86-64 and again with -C target-cpu=native, without overflow checks; ours is the
archive of `rt lib`, for baseline x86-64. Each side is called before it is timed, the sides take turns, and {}, ratios those of the best and of the medians. Buffers are not cleared between calls. Vectors are up to 40 pixels
long, sads up to 3,000; results are compared before they are timed.
",
        named.unwrap_or("unknown"),
        env!("RUSTC_VERSION"),
        sampling()
    )
}
