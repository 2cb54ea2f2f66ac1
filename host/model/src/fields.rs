//! The calls that know no session, with their numbers in the order of paper 01's table ('Refused calls').

use crate::class::{class, counts};
use crate::luma::{average, map_byte, score_at};
use crate::masks::{self, Settings};
use crate::numbers::{side_good, time_good};
use crate::planes;
use crate::scatter::grid;
use crate::session::Limits;
use crate::shape::{Shape, TABLE, sizes};
use crate::update::copy;

/// Both sets of a field.
#[derive(Clone, Copy)]
pub struct Sets<'a> {
    pub backward: &'a [u8],
    pub forward: &'a [u8],
}

impl<'a> Sets<'a> {
    const fn of(self, side: u32) -> &'a [u8] {
        if side == 1 { self.backward } else { self.forward }
    }
}

/// 2, then 3 where a set or one of the other buffers is too short.
fn lent(shape: &Shape, backward: usize, forward: usize, others_fit: impl Fn() -> bool) -> u32 {
    if !shape.accepted() {
        2
    } else if backward < shape.set_size() || forward < shape.set_size() || !others_fit() {
        3
    } else {
        0
    }
}

/// What `sizes` answers: a number, the nine least sizes of a session's buffers and the mask's, and W and H.
#[derive(Clone, Copy, PartialEq, Eq, Debug)]
#[repr(C)]
pub struct Sizes {
    pub number: u32,
    pub least: [usize; 10],
    pub packed_width: usize,
    pub packed_height: usize,
}

pub fn sizes_of(shape: &Shape) -> Sizes {
    if !shape.accepted() {
        return Sizes { number: 2, least: [0; 10], packed_width: 0, packed_height: 0 };
    }
    let (packed_width, packed_height) = (shape.packed_width(), shape.packed_height());
    Sizes { number: 0, least: sizes(shape), packed_width, packed_height }
}

pub fn update(shape: &Shape, payload: &[u8], backward: &mut [u8], forward: &mut [u8]) -> u32 {
    match lent(shape, backward.len(), forward.len(), || true) {
        0 => copy(shape, payload, backward, forward),
        number => number,
    }
}

pub fn avg_luma(shape: &Shape, sets: Sets, table: &[u8], averages: &mut [u8]) -> u32 {
    let others_fit = || table.len() >= TABLE && averages.len() >= shape.blocks();
    let number = lent(shape, sets.backward.len(), sets.forward.len(), others_fit);
    if number == 0 {
        for (block, byte) in averages.iter_mut().enumerate().take(shape.blocks()) {
            *byte = average(table, sets.backward, sets.forward, block);
        }
    }
    number
}

pub fn pack(shape: &Shape, side: u32, sets: Sets, xs: &mut [u16], ys: &mut [u16]) -> u32 {
    let others_fit = || xs.len() >= shape.plane_size() && ys.len() >= shape.plane_size();
    match lent(shape, sets.backward.len(), sets.forward.len(), others_fit) {
        0 if !side_good(side) => 8,
        0 => {
            planes::pack(shape, sets.of(side), xs, ys);
            0
        }
        number => number,
    }
}

pub fn quality_map(shape: &Shape, side: u32, limits: &Limits, sets: Sets, averages: &[u8], map: &mut [u8]) -> u32 {
    let others_fit = || averages.len() >= shape.blocks() && map.len() >= shape.blocks();
    match lent(shape, sets.backward.len(), sets.forward.len(), others_fit) {
        0 if !side_good(side) => 8,
        0 => {
            for (block, byte) in map.iter_mut().enumerate().take(shape.blocks()) {
                *byte = map_byte(limits, sets.of(side), averages, block);
            }
            0
        }
        number => number,
    }
}

/// What `quality` and the kept class answer: a number, and beside 0 the class.
#[derive(Clone, Copy, PartialEq, Eq, Debug)]
#[repr(C)]
pub struct Class {
    pub number: u32,
    pub value: u32,
}

pub fn quality(shape: &Shape, side: u32, limits: &Limits, sets: Sets, averages: &[u8]) -> Class {
    match lent(shape, sets.backward.len(), sets.forward.len(), || averages.len() >= shape.blocks()) {
        0 if !side_good(side) => Class { number: 8, value: 0 },
        0 => {
            let scores = (0..shape.blocks()).map(|block| score_at(sets.of(side), averages, block));
            Class { number: 0, value: class(limits.blocks, &counts(limits, scores)) }
        }
        number => Class { number, value: 0 },
    }
}

/// The numbers that both mask calls are given: a whole cover of 0 to 1000 and a SAD scale of 0 to 65536, not NaN.
#[derive(Clone, Copy, Debug)]
pub struct Scales {
    pub cover: i32,
    pub sad_scale: f64,
}

impl Scales {
    fn good(self) -> bool {
        (0..=1000).contains(&self.cover) && (0.0..=65536.0).contains(&self.sad_scale)
    }

    fn settings(self) -> Settings {
        Settings::new(self.cover, self.sad_scale)
    }
}

pub fn cover_mask(
    shape: &Shape,
    side: u32,
    sets: Sets,
    scales: Scales,
    time: i32,
    scratch: &mut [i32],
    mask: &mut [u8],
) -> u32 {
    let others_fit = || scratch.len() >= shape.grid_size() && mask.len() >= shape.plane_size();
    match lent(shape, sets.backward.len(), sets.forward.len(), others_fit) {
        0 if !side_good(side) => 8,
        0 if !time_good(time) || !scales.good() => 7,
        0 => {
            let cells = grid(shape, time, sets.of(side));
            scratch[..cells.len()].copy_from_slice(&cells);
            masks::cover_mask(shape, scales.settings(), &cells, mask);
            0
        }
        number => number,
    }
}

pub fn sad_mask(shape: &Shape, side: u32, sets: Sets, scales: Scales, mask: &mut [u8]) -> u32 {
    match lent(shape, sets.backward.len(), sets.forward.len(), || mask.len() >= shape.plane_size()) {
        0 if !side_good(side) => 8,
        0 if !scales.good() => 7,
        0 => {
            masks::sad_mask(shape, scales.settings(), sets.of(side), mask);
            0
        }
        number => number,
    }
}
