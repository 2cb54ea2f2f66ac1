//! `sad_mask` with `sharp` 1.0: SAD scales from 0 to 65536, sads at their ends, edges that repeat.
//!
//! Numbers: shape, n, slopes, side, cover (which no byte depends on), then the SAD scale's bits (low, high). Parts: the sets; answer: the mask.

use std::hint::black_box;

use model::drawn::entries;
use model::shape::{Axis, Shape};

use crate::answers::Case;
use crate::draw::Draw;
use crate::inputs::Given;
use crate::kinds::sets::{sads, zeros};
use crate::kinds::{BACKWARD, SIDES};

const SCALES: [f64; 12] =
    [0.0, -0.0, 5e-324, 1e-300, 1e-7, 0.01, 0.5, 1.0, 1.000_000_000_000_000_2, 3.0, 65_535.999_999_999_99, 65536.0];

pub fn cases() -> Vec<Case> {
    let mut draw = Draw::new(8);
    let mut out = Vec::new();
    for scale in SCALES {
        for (block, overlap, rest) in [(8, 0, 0), (8, 0, 1), (1, 0, 0), (256, 255, 1), (7, 3, 0)] {
            out.push(case(&edge_field(block, overlap, rest), BACKWARD, scale));
        }
    }
    ordered(&mut out);
    for turn in 0..260 {
        let given = Given::drawn(&mut draw);
        out.push(case(&given, SIDES[turn % 2], drawn_scale(&mut draw)));
    }
    for (grid_w, grid_h) in [(240, 135), (1024, 31), (31, 1024)] {
        let shape = Shape::of_axes(Axis::covering(16, 0, grid_w, 1), Axis::covering(16, 4, grid_h, 0), 1);
        let given = Given::new(shape, entries(&mut draw, &shape, 503), zeros());
        out.push(case(&given, BACKWARD, 0.3));
    }
    out
}

/// Nine sads: K10's and their neighbours, and both ends.
fn edge_field(block: i32, overlap: i32, rest: i32) -> Given {
    let set = sads([0, 1, 7, 8, 9, 15, 16, 17, 0xFF_FFFF]);
    let axis = Axis::covering(block, overlap, 3, rest);
    Given::new(Shape::of_axes(axis, axis, 1), set, zeros())
}

/// Sads whose bytes change if the float operations are done in another order.
fn ordered(out: &mut Vec<Case>) {
    let third = 1.0 / 3.0;
    for (side, scale, step) in [(3, 0.9, 1), (3, 0.3, 3), (3, 0.7, 3), (5, third, 5), (10, third, 5), (12, 0.3, 72)] {
        let axis = Axis::covering(side, 0, 4, 0);
        let set = sads((0..16).map(|i| i * step));
        out.push(case(&Given::new(Shape::of_axes(axis, axis, 1), set, zeros()), BACKWARD, scale));
    }
}

/// A scale of the list, one from 0 to 65536, or one from 0 to 1 of many sizes.
fn drawn_scale(draw: &mut Draw) -> f64 {
    let share = (draw.bits() >> 11) as f64 / (1u64 << 53) as f64;
    match draw.between(0, 3) {
        0 => draw.pick(&SCALES),
        1 => share * 65536.0,
        2 => share,
        _ => share / f64::from(1 << draw.between(1, 20)),
    }
}

fn case(given: &Given, side: i32, scale: f64) -> Case {
    let (width, height) = given.size();
    let mut mask = vec![0; given.shape.plane_size()];
    given.field().sad_mask(side == BACKWARD, &mut mask, scale, black_box(1.0), width, height);
    let bits = scale.to_bits();
    given.case(&[side, 100, bits as u32 as i32, (bits >> 32) as i32]).answer(&mask)
}
