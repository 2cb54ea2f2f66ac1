//! Calls of a session and lists of them.

use draw::Draw;

use crate::calls::Put;
use crate::drawn::{Gestures, damaged, damaged_pair, entry, gesture, pair, payload};
use crate::list::Call;
use crate::shape::Shape;

/// How often each call stands in a list, in parts of their sum; and how often, in a hundred, its arguments are ones that are refused.
#[derive(Clone, Copy, Debug)]
pub struct Mix {
    pub take: i32,
    pub pool: i32,
    pub put: i32,
    pub undo: i32,
    pub redo: i32,
    pub retime: i32,
    pub bad: i32,
}

impl Mix {
    pub const EVEN: Self = Self { take: 1, pool: 1, put: 12, undo: 8, redo: 6, retime: 2, bad: 15 };
}

/// A time within its range.
pub fn time(draw: &mut Draw) -> i32 {
    let (any, small) = (draw.between(-65535, 65535), draw.between(-256, 256));
    draw.pick(&[0, 128, 256, -256, 257, -257, 65535, -65535, any, small, small])
}

/// A put; a bad one has at least one argument out of its range.
pub fn put(draw: &mut Draw, shape: &Shape, bad: bool) -> Put {
    let n = shape.blocks() as u32;
    let e = entry(draw, shape);
    let mut put = Put {
        side: draw.pick(&[1, 2]),
        block: draw.between(0, n as i32 - 1).cast_unsigned(),
        x: e.x,
        y: e.y,
        sad: e.sad,
        luma: e.luma,
        gesture: gesture(draw),
    };
    while bad && (1..=2).contains(&put.side) && put.block < n && (0..=16_777_215).contains(&put.sad) {
        match draw.between(0, 2) {
            0 => put.side = draw.pick(&[0, 3, u32::MAX]),
            1 => put.block = draw.pick(&[n, n + 1, u32::MAX]),
            _ => put.sad = draw.pick(&[-1, 16_777_216, i32::MIN, i32::MAX]),
        }
        if draw.once_in(8) {
            put.sad = draw.pick(&[-1, 16_777_216, 16_777_215]);
        }
    }
    put
}

pub fn call(draw: &mut Draw, shape: &Shape, mix: &Mix) -> Call {
    let bad = draw.between(1, 100) <= mix.bad;
    let mut part = draw.between(1, mix.take + mix.pool + mix.put + mix.undo + mix.redo + mix.retime);
    let mut within = |weight: i32| {
        part -= weight;
        part <= 0
    };
    if within(mix.take) {
        return Call::Take(if bad { damaged(draw, shape) } else { payload(draw, shape) });
    }
    if within(mix.pool) {
        let [first, second] = if bad { damaged_pair(draw, shape) } else { pair(draw, shape) };
        return Call::Pool { first, second };
    }
    if within(mix.put) {
        return Call::Put(put(draw, shape, bad));
    }
    if within(mix.undo) {
        return Call::Undo;
    }
    if within(mix.redo) {
        return Call::Redo;
    }
    let outside = draw.any_i32();
    Call::Retime(if bad { draw.pick(&[65536, -65536, i32::MIN, i32::MAX, outside]) } else { time(draw) })
}

/// A list, its puts numbered so that runs arise.
pub fn list(draw: &mut Draw, shape: &Shape, mix: &Mix, count: usize) -> Vec<Call> {
    let mut out: Vec<Call> = (0..count).map(|_| call(draw, shape, mix)).collect();
    Gestures::drawn(draw).number(draw, &mut out);
    out
}
