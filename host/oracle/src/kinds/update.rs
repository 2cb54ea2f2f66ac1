//! `update`: whole payloads, and payloads that are cut or damaged at each boundary.
//!
//! Numbers: shape, n, slopes (0), accepted (1 or 0). Parts: the sets before, the payload; answers: the backward and the forward set after.

use model::drawn::{entries, payload};
use model::shape::{Axis, Shape};

use crate::answers::Case;
use crate::draw::Draw;
use crate::inputs::{Given, entry_bytes};

const FLAGS: [i32; 14] = [0, 1, 2, 3, 4, 5, 6, 7, -1, -2, -3, -4, i32::MIN, i32::MAX];

pub fn cases() -> Vec<Case> {
    let mut draw = Draw::new(2);
    let mut out = Vec::new();
    for flags in FLAGS {
        damaged(&mut draw, &mut out, field_shape(flags, 2, 1));
    }
    damaged(&mut draw, &mut out, field_shape(3, 1, 1));
    damaged(&mut draw, &mut out, field_shape(3, 2, 3));
    damaged(&mut draw, &mut out, field_shape(i32::MIN + 3, 1, 1));
    for (grid_w, grid_h) in [(1024, 1), (1, 1024), (17, 19)] {
        let shape = field_shape(3, grid_w, grid_h);
        let payload = payload(&mut draw, &shape);
        out.push(case(&mut draw, shape, &payload));
        out.push(case(&mut draw, shape, &payload[..payload.len() - 1]));
    }
    out
}

fn field_shape(flags: i32, grid_w: i32, grid_h: i32) -> Shape {
    Shape { flags, ..Shape::of_axes(Axis::covering(8, 0, grid_w, 0), Axis::covering(8, 0, grid_h, 0), 1) }
}

/// A payload cut at each boundary, and with each of its checked bytes changed.
fn damaged(draw: &mut Draw, out: &mut Vec<Case>, shape: Shape) {
    let set = shape.set_size();
    let whole = payload(draw, &shape);
    let ends =
        [0, 3, 4, 7, 8, 11, 12, 63, 64, 67, 68, 67 + set, 68 + set, 71 + set, 72 + set, 71 + 2 * set, 72 + 2 * set];
    for end in ends {
        out.push(case(draw, shape, &whole[..end]));
    }
    let mut longer = whole.clone();
    longer.push(9);
    out.push(case(draw, shape, &longer));
    for checked in [0, 4, 8, 64, 68 + set] {
        for byte in [checked, checked + 3] {
            let mut changed = whole.clone();
            changed[byte] ^= if byte == checked { 1 } else { 0x80 };
            out.push(case(draw, shape, &changed));
        }
    }
    for ignored in [12, 63] {
        let mut changed = whole.clone();
        changed[ignored] ^= 0xFF;
        out.push(case(draw, shape, &changed));
    }
}

fn case(draw: &mut Draw, shape: Shape, payload: &[u8]) -> Case {
    let before = Given::new(shape, entries(draw, &shape, 1), entries(draw, &shape, 1));
    let mut field = before.field();
    let accepted = field.update(payload);
    let (backward, forward) = field.sets();
    let case = before.case(&[i32::from(accepted)]).answered_by(14).part(payload);
    case.answer(&entry_bytes(backward)).answer(&entry_bytes(forward))
}
