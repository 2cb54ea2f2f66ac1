//! `avg_luma`: every luma sum from 0 to 510 through one drawn table, then drawn lumas through tables that repeat a drawn part.
//!
//! Numbers: shape, n, slopes. Parts: the sets, the table (repeated to 511 bytes); answer: the averages.

use model::drawn::entries;
use model::shape::{Axis, Shape, TABLE};

use crate::answers::Case;
use crate::draw::Draw;
use crate::inputs::{Given, repeated};
use crate::kinds::sets::lumas;

pub fn cases() -> Vec<Case> {
    let mut draw = Draw::new(5);
    let mut out = Vec::new();
    let table = draw.bytes(TABLE);
    for luma in [0, 1, 127, 128, 254, 255] {
        out.push(every_sum_with(luma, &table));
    }
    for _ in 0..150 {
        let given = Given::drawn(&mut draw);
        let length = draw.pick(&[1, 7, 100, 509]);
        out.push(case(&given, &draw.bytes(length)));
    }
    let shape = Shape::of_axes(Axis::covering(16, 0, 240, 0), Axis::covering(16, 0, 135, 0), 1);
    let given = Given::new(shape, entries(&mut draw, &shape, 251), entries(&mut draw, &shape, 257));
    out.push(case(&given, &table));
    out
}

/// 256 blocks: every backward luma beside one forward luma.
fn every_sum_with(luma: u8, table: &[u8]) -> Case {
    let axis = Axis::covering(8, 0, 16, 0);
    case(&Given::new(Shape::of_axes(axis, axis, 1), lumas(0..=255), lumas([luma])), table)
}

fn case(given: &Given, part: &[u8]) -> Case {
    let mut table = [0; TABLE];
    table.copy_from_slice(&repeated(part, TABLE));
    let mut averages = vec![0; given.shape.blocks()];
    given.field().avg_luma(&mut averages, &table);
    given.case(&[]).part(part).answer(&averages)
}
