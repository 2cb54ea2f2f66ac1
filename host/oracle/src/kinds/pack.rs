//! `pack`: both planes at W by H, with components at ±1023 and ±1024 and positions that meet the picture's end.
//!
//! Numbers: shape, n, slopes, side. Parts: the sets; answers: the x plane and the y plane, u16 each.

use model::drawn::entries;
use model::shape::{Axis, Shape};

use crate::answers::Case;
use crate::draw::Draw;
use crate::inputs::Given;
use crate::kinds::sets::{vectors, zeros};
use crate::kinds::{BACKWARD, SIDES};

pub fn cases() -> Vec<Case> {
    let mut draw = Draw::new(4);
    let mut out = Vec::new();
    for selector in [0, 1, -1, i32::MIN, i32::MAX] {
        for rest in [-9, -4, -1, 0, 1, 8] {
            for list in edge_lists() {
                let axis = Axis::covering(8, 0, 3, rest);
                let shape = Shape { selector, ..Shape::of_axes(axis, axis, 1) };
                out.push(case(&Given::new(shape, vectors(&list), zeros()), BACKWARD));
            }
        }
    }
    for turn in 0..300 {
        out.push(case(&Given::drawn(&mut draw), SIDES[turn % 2]));
    }
    for (grid_w, grid_h) in [(240, 135), (1024, 31), (31, 1024)] {
        let shape = Shape::of_axes(Axis::covering(16, 3, grid_w, 1), Axis::covering(32, 0, grid_h, 0), 2);
        let part = entries(&mut draw, &shape, 503);
        out.push(case(&Given::new(shape, part, zeros()), BACKWARD));
    }
    out
}

fn edge_lists() -> [[(i16, i16); 9]; 3] {
    [
        [
            (1023, -1023),
            (-1023, 1023),
            (1024, 0),
            (0, -1024),
            (-1024, 0),
            (0, 1024),
            (-32768, 0),
            (0, 32767),
            (32767, -32768),
        ],
        [(5, 5), (-3, -4), (-20, -8), (-8, -9), (-7, 8), (1, -1), (-16, -17), (0, 0), (-4, -3)],
        [(0, 0), (-1, 7), (8, -2), (9, 16), (17, -5), (-15, 4), (2, 1), (3, -24), (-25, 24)],
    ]
}

fn case(given: &Given, side: i32) -> Case {
    let (width, height) = given.size();
    let (mut xs, mut ys) = (vec![0; given.shape.plane_size()], vec![0; given.shape.plane_size()]);
    given.field().pack(side == BACKWARD, &mut xs, &mut ys, width, height);
    given.case(&[side]).answer(&plane_bytes(&xs)).answer(&plane_bytes(&ys))
}

fn plane_bytes(plane: &[u16]) -> Vec<u8> {
    plane.iter().flat_map(|cell| cell.to_le_bytes()).collect()
}
