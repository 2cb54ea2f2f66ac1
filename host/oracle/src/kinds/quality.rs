//! `quality_map` and `quality`: scores at and beside their limits, limits at the ends of i32, sads whose product wraps.
//!
//! Numbers: shape, n, slopes, side, zero, m1, m2, scene, blocks; `quality` adds the class. Parts: the sets, the averages (repeated to
//! n bytes); `quality_map`'s answer: the map.

use model::drawn::{entries, limits, luma};
use model::session::Limits;
use model::shape::{Axis, Shape};

use crate::answers::Case;
use crate::draw::Draw;
use crate::inputs::{Given, repeated, scene_limits};
use crate::kinds::sets::{sads, zeros};
use crate::kinds::{BACKWARD, FORWARD, SIDES};

/// What one call of either is given.
struct Scored {
    given: Given,
    side: i32,
    limits: Limits,
    averages: Vec<u8>,
}

/// Zero, m1, m2, scene and blocks.
const EDGE_LIMITS: [[i32; 5]; 10] = [
    [200, 1600, 2800, 4000, 20],
    [0, 0, 0, 0, 0],
    [i32::MIN, i32::MIN, i32::MIN, i32::MIN, i32::MIN],
    [i32::MAX, i32::MAX, i32::MAX, i32::MAX, i32::MAX],
    [i32::MIN, 0, i32::MAX, i32::MIN, i32::MAX],
    [4000, 2800, 1600, 200, 100],
    [i32::MIN, -1, 0, 1, -100],
    [200, 1600, 2800, 4000, i32::MIN],
    [-2_147_483_521, -2_147_483_520, 0, 2_147_483_520, 1],
    [200, 200, 200, 200, 99],
];

/// Sads at K7's and K8's places, at both ends and where the product by 255 wraps.
const EDGE_SADS: [i32; 12] =
    [0, 1, 156, 157, 1254, 1255, 8_421_504, 8_421_505, 12_632_256, 16_777_214, 0xFF_FFFF, 3137];

pub fn map_cases() -> Vec<Case> {
    let mut out = Vec::new();
    for scored in scored() {
        let mut map = vec![0; scored.given.shape.blocks()];
        let (limits, luma) = (scene_limits(&scored.limits), scored.luma());
        scored.given.field().quality_map(scored.side == BACKWARD, &limits, &luma, &mut map);
        out.push(scored.case(&[]).answer(&map));
    }
    out
}

pub fn class_cases() -> Vec<Case> {
    let mut out = Vec::new();
    for scored in scored().into_iter().chain(counted()) {
        let (limits, luma) = (scene_limits(&scored.limits), scored.luma());
        let class = scored.given.field().quality(scored.side == BACKWARD, &limits, &luma);
        out.push(scored.case(&[class]).answered_by(20));
    }
    out
}

impl Scored {
    fn case(&self, more: &[i32]) -> Case {
        let Limits { blocks, zero, m1, m2, scene } = self.limits;
        let numbers = [&[self.side, zero, m1, m2, scene, blocks], more].concat();
        self.given.case(&numbers).part(&self.averages)
    }

    fn luma(&self) -> Vec<u8> {
        repeated(&self.averages, self.given.shape.blocks())
    }
}

fn scored() -> Vec<Scored> {
    let mut draw = Draw::new(6);
    let mut out = Vec::new();
    for [zero, m1, m2, scene, blocks] in EDGE_LIMITS {
        for average in [0, 1, 2, 200, 255] {
            for side in SIDES {
                let limits = Limits { blocks, zero, m1, m2, scene };
                out.push(Scored { given: edge_field(side), side, limits, averages: vec![average] });
            }
        }
    }
    for turn in 0..200 {
        let (given, limits) = (Given::drawn(&mut draw), limits(&mut draw));
        let averages = (0..given.shape.blocks()).map(|_| luma(&mut draw)).collect();
        out.push(Scored { given, side: SIDES[turn % 2], limits, averages });
    }
    let shape = Shape::of_axes(Axis::covering(16, 0, 240, 0), Axis::covering(16, 0, 135, 0), 1);
    let given = Given::new(shape, entries(&mut draw, &shape, 503), zeros());
    out.push(Scored { given, side: BACKWARD, limits: Limits::USUAL, averages: draw.bytes(499) });
    out
}

/// Twelve blocks of the edge sads on one side, zeros on the other.
fn edge_field(side: i32) -> Given {
    let shape = Shape::of_axes(Axis::covering(8, 0, 4, 0), Axis::covering(8, 0, 3, 0), 1);
    let set = sads(EDGE_SADS);
    if side == FORWARD { Given::new(shape, zeros(), set) } else { Given::new(shape, set, zeros()) }
}

/// Every number of blocks from 0 to 9 that reach m1, m2 or scene, with shares about theirs: K9's table and its neighbours.
fn counted() -> Vec<Scored> {
    let mut out = Vec::new();
    for sad in [1600, 2800, 4000] {
        for count in 0..=9 {
            for blocks in [0, 1, 20, 50, 100, 101, -20] {
                out.push(counted_field(count, sad, blocks));
            }
        }
    }
    out
}

/// Ten blocks with average 255, so that a score is its sad: `count` with the given sad, the others below zero's limit.
fn counted_field(count: i32, sad: i32, blocks: i32) -> Scored {
    let shape = Shape::of_axes(Axis::covering(8, 0, 5, 0), Axis::covering(8, 0, 2, 0), 1);
    let set = sads((0..10).map(|i| if i < count { sad } else { 199 }));
    let limits = Limits { blocks, ..Limits::USUAL };
    Scored { given: Given::new(shape, set, zeros()), side: BACKWARD, limits, averages: vec![255] }
}
