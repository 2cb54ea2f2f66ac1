//! What a case gives to a call: a shape within the paper's limits and two sets, given by parts that repeat.

use model::drawn;
use model::entry::Entry;
use model::session::Limits;
use model::shape::Shape;

use crate::answers::Case;
use crate::draw::Draw;
use crate::smooth::{BlockVector, FieldShape, SceneLimits, VectorField, entries};

/// The Rust's shape of the same fields.
pub const fn field_shape(shape: &Shape) -> FieldShape {
    let Shape { flags, block_w, block_h, pel, width, height, overlap_x, overlap_y, grid_w, grid_h, selector } = *shape;
    FieldShape { flags, block_w, block_h, pel, width, height, overlap_x, overlap_y, grid_w, grid_h, selector }
}

/// The Rust's limits of the same fields.
pub const fn scene_limits(limits: &Limits) -> SceneLimits {
    let Limits { blocks, zero, m1, m2, scene } = *limits;
    SceneLimits { blocks, zero, m1, m2, scene }
}

/// W and H of an accepted shape, which the Rust is passed as width and height.
pub const fn size(shape: &Shape) -> (i32, i32) {
    (shape.packed_width() as i32, shape.packed_height() as i32)
}

/// The fields of the Rust's shape, in order.
pub const fn shape_numbers(s: &FieldShape) -> [i32; 11] {
    [s.flags, s.block_w, s.block_h, s.pel, s.width, s.height, s.overlap_x, s.overlap_y, s.grid_w, s.grid_h, s.selector]
}

/// The bytes of the Rust's entries.
pub fn entry_bytes(set: &[BlockVector]) -> Vec<u8> {
    set.iter().flat_map(|&BlockVector { x, y, sad, luma }| Entry { x, y, sad, luma }.bytes()).collect()
}

/// A shape anywhere within the limits, with few blocks.
pub fn drawn_shape(draw: &mut Draw) -> Shape {
    let (grid_w, grid_h) = match draw.between(0, 9) {
        0 => (draw.pick(&[15, 16, 17, 33]), draw.between(1, 2)),
        1 => (1, 1),
        _ => (draw.between(1, 4), draw.between(1, 4)),
    };
    drawn::of_grid(draw, grid_w, grid_h)
}

/// `count` bytes of a part that starts again where it ends.
pub fn repeated(part: &[u8], count: usize) -> Vec<u8> {
    part.iter().copied().cycle().take(count).collect()
}

/// A shape and the parts of its two sets.
///
/// A set's bytes are its part, repeated; then `slope[0]` for each column is added to x and `slope[1]` for each row to y, modulo 2^16.
pub struct Given {
    pub shape: Shape,
    pub backward: Vec<u8>,
    pub forward: Vec<u8>,
    pub slope: [u16; 2],
}

impl Given {
    pub const fn new(shape: Shape, backward: Vec<u8>, forward: Vec<u8>) -> Self {
        Self { shape, backward, forward, slope: [0, 0] }
    }

    /// A drawn shape with two drawn sets.
    pub fn drawn(draw: &mut Draw) -> Self {
        let shape = drawn_shape(draw);
        let backward = drawn::set(draw, &shape);
        Self::new(shape, backward, drawn::set(draw, &shape))
    }

    /// The numbers of the shape, n and the slopes, then the call's own, and the parts of both sets.
    pub fn case(&self, numbers: &[i32]) -> Case {
        let mut all = self.shape.fields().to_vec();
        all.push(self.shape.blocks() as i32);
        all.extend(self.slope.map(i32::from));
        all.extend(numbers);
        Case::new(&all).part(&self.backward).part(&self.forward)
    }

    pub fn field(&self) -> VectorField {
        let (backward, forward) = (self.set(&self.backward), self.set(&self.forward));
        VectorField::from_sets(field_shape(&self.shape), entries(&backward), entries(&forward))
    }

    pub const fn size(&self) -> (i32, i32) {
        size(&self.shape)
    }

    fn set(&self, part: &[u8]) -> Vec<u8> {
        let mut bytes = repeated(part, self.shape.set_size());
        let columns = self.shape.grid_w as usize;
        for (block, entry) in bytes.as_chunks_mut::<8>().0.iter_mut().enumerate() {
            slant(&mut entry[2..4], block % columns, self.slope[0]);
            slant(&mut entry[0..2], block / columns, self.slope[1]);
        }
        bytes
    }
}

/// Adds `slope`, `times` times, to a component's two bytes, modulo 2^16.
fn slant(component: &mut [u8], times: usize, slope: u16) {
    let value = u16::from_le_bytes([component[0], component[1]]).wrapping_add(slope.wrapping_mul(times as u16));
    component.copy_from_slice(&value.to_le_bytes());
}
