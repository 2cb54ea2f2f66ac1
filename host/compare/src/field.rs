//! What the calls over two sets are given: one input serves each of them, and each uses its part.

use draw::Draw;
use model::drawn::{self, bad_shape, entry, limits, luma, of_grid, time};
use model::entry::Entry;
use model::luma::score;
use model::session::Limits;
use model::shape::Shape;

/// The buffers of these calls, for `Field::extra`.
pub const NAMES: [&str; 9] = ["backward", "forward", "table", "averages", "map", "mask", "xs", "ys", "scratch"];

#[derive(Clone, Debug)]
pub struct Field {
    pub shape: Shape,
    pub side: u32,
    pub time: i32,
    pub cover: i32,
    pub sad_scale: f64,
    pub limits: Limits,
    /// n each, of an accepted shape.
    pub backward: Vec<Entry>,
    pub forward: Vec<Entry>,
    pub averages: Vec<u8>,
    pub payload: Vec<u8>,
    /// By how much each buffer is longer than it must be, or shorter.
    pub extra: [i32; 9],
    /// What stands in buffers before the call, and the table.
    pub seed: u32,
}

impl Field {
    /// A shape with zero vectors and everything else as usual.
    pub fn still(shape: Shape) -> Self {
        let n = if shape.accepted() { shape.blocks() } else { 5 };
        Self {
            shape,
            side: 1,
            time: 256,
            cover: 100,
            sad_scale: 1.0,
            limits: Limits::USUAL,
            backward: vec![Entry::default(); n],
            forward: vec![Entry::default(); n],
            averages: vec![100; n],
            payload: Vec::new(),
            extra: [0; 9],
            seed: 1,
        }
    }

    /// A shape with drawn sets and averages.
    pub fn filled(draw: &mut Draw, shape: Shape) -> Self {
        let mut field = Self::still(shape);
        // Vectors are drawn about a block's steps, which a refused shape doesn't have.
        let plain = Shape { block_w: 8, block_h: 8, ..Shape::default() };
        let shape = if shape.accepted() { shape } else { plain };
        for block in 0..field.averages.len() {
            field.backward[block] = entry(draw, &shape);
            field.forward[block] = entry(draw, &shape);
            field.averages[block] = luma(draw);
        }
        field.seed = draw.between(0, 65_535).cast_unsigned();
        field
    }

    /// Anything: most inputs are accepted, and each condition of the table is met now and then.
    pub fn drawn(draw: &mut Draw) -> Self {
        let shape = drawn_shape(draw);
        let mut field = Self::filled(draw, shape);
        field.side = draw.pick(&[1, 2]);
        field.time = time(draw);
        field.cover = draw.between(0, 1000);
        field.cover = draw.pick(&[0, 1, 99, 100, 101, 255, 999, 1000, field.cover, field.cover]);
        field.sad_scale = sad_scale(draw, &field);
        field.limits = near_limits(draw, &field);
        for extra in &mut field.extra {
            *extra = draw.pick(&[0, 0, 0, 1, 3, 8]);
        }
        if draw.once_in(8) {
            field.spoil(draw);
        }
        field
    }

    /// Meets one condition of the table, or two.
    fn spoil(&mut self, draw: &mut Draw) {
        let all = [0, 1, 2, 3, 4];
        for what in [draw.pick(&all), draw.pick(&all)] {
            match what {
                0 => self.shape = bad_shape(draw, &self.shape),
                1 => self.extra[draw.between(0, 8) as usize] = draw.pick(&[-1, -1, -2, -7, -100_000]),
                2 => self.side = draw.pick(&[0, 3, 255, 256, 257, u32::MAX]),
                3 => self.time = draw.pick(&[65_536, -65_536, i32::MIN, i32::MAX]),
                _ if draw.once_in(2) => self.cover = draw.pick(&[-1, 1001, i32::MIN, i32::MAX]),
                _ => self.sad_scale = draw.pick(&BAD_SCALES),
            }
        }
    }

    /// The set of a side that is 1, or else the forward one.
    pub fn set(&self, side: u32) -> &[Entry] {
        if side == 1 { &self.backward } else { &self.forward }
    }
}

/// SAD scales that are refused.
pub const BAD_SCALES: [f64; 6] = [f64::NAN, -1.0, -5e-324, 65_536.000_000_000_01, f64::INFINITY, f64::NEG_INFINITY];

/// Grids of a few blocks, and now and then rows about 16, 32 and 48 blocks long.
fn drawn_shape(draw: &mut Draw) -> Shape {
    if draw.once_in(8) {
        let (long, short) = (draw.pick(&[15, 16, 17, 31, 32, 33, 47, 48, 49]), draw.between(1, 3));
        return if draw.once_in(3) { of_grid(draw, short, long) } else { of_grid(draw, long, short) };
    }
    drawn::shape(draw, 4)
}

/// A scale within its range; now and then one that takes a block's level to the edge between two bytes.
fn sad_scale(draw: &mut Draw, field: &Field) -> f64 {
    let share = (draw.bits() >> 11) as f64 / (1u64 << 53) as f64;
    let sad = field.backward.first().map_or(0, |entry| entry.sad).max(1);
    let level = f64::from(draw.between(1, 256));
    let (area_w, area_h) = (field.shape.block_w, field.shape.block_h);
    let edge = level * f64::from(area_w * area_h) / (f64::from(4 * sad) * 255.0);
    let scales = [0.0, -0.0, 5e-324, 1.0, 0.5, 65_536.0, share, 4.0 * share, 65_536.0 * share, edge, edge, edge];
    draw.pick(&scales).min(65_536.0)
}

/// Limits at and beside the scores that blocks have, or anywhere.
fn near_limits(draw: &mut Draw, field: &Field) -> Limits {
    let mut out = limits(draw);
    if draw.once_in(2) {
        let set = field.set(field.side);
        let mut one = |old: i32| {
            let block = draw.between(0, set.len() as i32 - 1) as usize;
            let near = score(set[block].sad, field.averages[block]).saturating_add(draw.between(-1, 1));
            if draw.once_in(4) { old } else { near }
        };
        (out.zero, out.m1, out.m2, out.scene) = (one(out.zero), one(out.m1), one(out.m2), one(out.scene));
    }
    out
}
