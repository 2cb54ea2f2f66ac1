//! The scatter's grid: `scratch` after `cover_mask`, at W by H.
//!
//! Numbers: shape, n, slopes, time. Parts: the set (as backward), a zero set; answer: the grid, i32 each.

use model::drawn::{GATHERINGS, Gathering, MOVES, entries, set, time};
use model::shape::{Axis, Shape};

use crate::answers::Case;
use crate::draw::Draw;
use crate::inputs::{Given, drawn_shape};
use crate::kinds::sets::{vectors, zeros};

const TIMES: [i32; 8] = [256, 257, -256, -257, 65535, -65535, 0, 128];
const PELS: [i32; 5] = [1, 2, 3, 4, 64];

/// Block side and overlap: steps 128, 129, 128, 129, 1, 256, 8, 1, 1, 3.
const BLOCKS: [(i32, i32); 10] =
    [(128, 0), (129, 0), (256, 128), (256, 127), (256, 255), (256, 0), (8, 0), (1, 0), (128, 127), (4, 1)];

const VECTORS: [i16; 9] = [-32768, -32767, 32767, -1, 1, 0, -300, 300, 4];

pub fn cases() -> Vec<Case> {
    let mut draw = Draw::new(3);
    let mut out = Vec::new();
    borders(&mut out);
    beside(&mut out);
    leaving(&mut out);
    gathered(&mut out);
    for _ in 0..300 {
        let shape = drawn_shape(&mut draw);
        let given = Given::new(shape, set(&mut draw, &shape), zeros());
        out.push(case(&given, time(&mut draw)));
    }
    wide(&mut draw, &mut out);
    out
}

/// Every time with every pel at every block on either axis: y's list is turned by one place more for each time and pel.
fn borders(out: &mut Vec<Case>) {
    let pairs = TIMES.into_iter().flat_map(|time| PELS.map(|pel| (time, pel)));
    for (round, (time, pel)) in pairs.enumerate() {
        for (index, x) in BLOCKS.into_iter().enumerate() {
            let y = BLOCKS[(index + round) % BLOCKS.len()];
            out.push(bordering(time, pel, [x, y], out.len()));
        }
    }
}

/// Times ±256 and ±257, pels 2 and 3, steps 128 and 129 on either axis: every mixture, since together they decide on the fast row.
fn beside(out: &mut Vec<Case>) {
    for time in [256, 257, -256, -257] {
        for pel in [2, 3] {
            for &x in &BLOCKS[..2] {
                for &y in &BLOCKS[..2] {
                    out.push(bordering(time, pel, [x, y], out.len()));
                }
            }
        }
    }
}

/// 3 by 2 blocks of two sides and overlaps; from turn to turn other vectors at their ends, and a picture that ends with the last block or behind it.
fn bordering(time: i32, pel: i32, [x, y]: [(i32, i32); 2], turn: usize) -> Case {
    let x = Axis::covering(x.0, x.1, 3, (turn / BLOCKS.len() % 2) as i32);
    let y = Axis::covering(y.0, y.1, 2, (turn / 2 % 2) as i32);
    let list: Vec<(i16, i16)> = (0..6).map(|i| (VECTORS[(i + turn) % 9], VECTORS[(2 * i + turn / 9) % 9])).collect();
    case(&Given::new(Shape::of_axes(x, y, pel), vectors(&list), zeros()), time)
}

/// One block that leaves its place on every side, by less than a step, by one and by more, at 1×1 and 2×2 grids.
fn leaving(out: &mut Vec<Case>) {
    for (turn, move_x) in MOVES.into_iter().enumerate() {
        for (row, move_y) in MOVES.into_iter().enumerate() {
            let grid = 1 + (turn + row) as i32 % 2;
            let axis = Axis::covering(8, (turn % 3) as i32, grid, (row % 2) as i32);
            let given = Given::new(Shape::of_axes(axis, axis, 1), vectors(&[(move_x, move_y)]), zeros());
            out.push(case(&given, if turn % 2 == 0 { 256 } else { 257 }));
        }
    }
}

/// All blocks of a large grid gather about one cell, which wraps.
fn gathered(out: &mut Vec<Case>) {
    for gathering in &GATHERINGS {
        out.push(case(&given_of(gathering), 256));
    }
}

/// The first block's vector, and a slope by which each is a step less than the one before.
pub fn given_of(gathering: &Gathering) -> Given {
    let back = gathering.step.wrapping_neg() as u16;
    Given { slope: [back, back], ..Given::new(gathering.shape(), vectors(&[gathering.first()]), zeros()) }
}

/// Large grids, whose sets repeat a drawn part.
fn wide(draw: &mut Draw, out: &mut Vec<Case>) {
    for (grid_w, grid_h) in [(240, 135), (1024, 31), (31, 1024), (120, 68)] {
        for time in [256, -131, 257] {
            let (block, overlap) = draw.pick(&BLOCKS);
            let shape = Shape::of_axes(
                Axis::covering(block, overlap, grid_w, draw.between(0, 1)),
                Axis::covering(16, 4, grid_h, draw.between(0, 1)),
                draw.pick(&PELS),
            );
            let part = entries(draw, &shape, 503);
            out.push(case(&Given::new(shape, part, zeros()), time));
        }
    }
}

fn case(given: &Given, time: i32) -> Case {
    let (width, height) = given.size();
    let (mut scratch, mut mask) = (Vec::new(), vec![0; given.shape.plane_size()]);
    given.field().cover_mask(&mut scratch, false, &mut mask, 100, time, width, height);
    given.case(&[time]).answer(&grid_bytes(&scratch))
}

pub fn grid_bytes(grid: &[i32]) -> Vec<u8> {
    grid.iter().flat_map(|cell| cell.to_le_bytes()).collect()
}
