//! `cover_mask`: its bytes and its scratch, at covers from 0 to 1000, 3 by 3 sums that wrap among them.
//!
//! Numbers: shape, n, slopes, side, time, cover, then the SAD scale's bits (low, high), which no byte depends on. Parts: the sets;
//! answers: the mask, the scratch.

use model::drawn::{GATHERINGS, entries, time};
use model::shape::{Axis, Shape};

use crate::answers::Case;
use crate::draw::Draw;
use crate::inputs::Given;
use crate::kinds::scatter::{given_of, grid_bytes};
use crate::kinds::sets::zeros;
use crate::kinds::{BACKWARD, FORWARD, SIDES};

const COVERS: [i32; 8] = [0, 1, 99, 100, 101, 255, 999, 1000];

pub fn cases() -> Vec<Case> {
    let mut draw = Draw::new(7);
    let mut out = Vec::new();
    for cover in COVERS {
        still(&mut out, cover);
    }
    for cover in [1, 100, 1000] {
        gathered(&mut out, cover);
    }
    floored(&mut out);
    ordered(&mut out);
    for turn in 0..260 {
        let (given, time, any_cover) = (Given::drawn(&mut draw), time(&mut draw), draw.between(0, 1000));
        let cover = draw.pick(&[0, 1, 100, 1000, any_cover, any_cover]);
        out.push(case(&given, SIDES[turn % 2], time, cover));
    }
    wide(&mut draw, &mut out);
    out
}

/// Zero vectors: K1's field, overlapping blocks, and fields whose picture goes on behind the last block.
fn still(out: &mut Vec<Case>, cover: i32) {
    for (block, overlap, rest) in [(8, 0, 0), (8, 4, 0), (16, 15, 1), (256, 0, 1), (256, 255, 0), (1, 0, 0), (3, 1, 1)]
    {
        let (x, y) = (Axis::covering(block, overlap, 3, rest), Axis::covering(block, overlap, 3, 0));
        out.push(case(&Given::new(Shape::of_axes(x, y, 1), zeros(), zeros()), FORWARD, 256, cover));
    }
}

/// Zero vectors in fields whose bytes change if the float operations are done in another order.
fn ordered(out: &mut Vec<Case>) {
    for (block_w, block_h, cover) in [(14, 7, 25), (14, 7, 50), (14, 7, 175), (2, 47, 75), (10, 11, 175), (4, 22, 75)] {
        let shape = Shape::of_axes(Axis::covering(block_w, 0, 3, 0), Axis::covering(block_h, 0, 3, 1), 1);
        out.push(case(&Given::new(shape, zeros(), zeros()), BACKWARD, 0, cover));
    }
}

/// All blocks about one cell: 3 by 3 sums of 2^31 and more, read as negative.
fn gathered(out: &mut Vec<Case>, cover: i32) {
    for gathering in [&GATHERINGS[0], &GATHERINGS[2]] {
        out.push(case(&given_of(gathering), BACKWARD, 256, cover));
    }
}

/// A 3 by 3 sum of -131071: an eighth of it rounded towards zero, not down, would give another byte.
fn floored(out: &mut Vec<Case>) {
    for cover in [5, 50] {
        out.push(case(&given_of(&GATHERINGS[1]), BACKWARD, 256, cover));
    }
}

/// Large grids, whose sets repeat a drawn part.
fn wide(draw: &mut Draw, out: &mut Vec<Case>) {
    for (grid_w, grid_h) in [(240, 135), (1024, 31), (31, 1024), (120, 68)] {
        let (rest, pel) = (draw.between(0, 1), draw.pick(&[1, 2, 3]));
        let shape = Shape::of_axes(Axis::covering(32, 8, grid_w, rest), Axis::covering(16, 0, grid_h, 1), pel);
        let given = Given::new(shape, entries(draw, &shape, 503), entries(draw, &shape, 499));
        out.push(case(&given, draw.pick(&SIDES), 200, 100));
    }
}

fn case(given: &Given, side: i32, time: i32, cover: i32) -> Case {
    let (width, height) = given.size();
    let (mut scratch, mut mask) = (Vec::new(), vec![0; given.shape.plane_size()]);
    given.field().cover_mask(&mut scratch, side == FORWARD, &mut mask, cover, time, width, height);
    let one = 1.0f64.to_bits();
    let numbers = [side, time, cover, one as u32 as i32, (one >> 32) as i32];
    given.case(&numbers).answer(&mask).answer(&grid_bytes(&scratch))
}
