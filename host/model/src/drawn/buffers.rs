//! The nine lent buffers, with what stands in them.

use draw::Draw;

use crate::session::Buffers;
use crate::shape::{Shape, sizes};

/// Lengths that fit a shape, some with surplus, and a history of `history` bytes.
pub fn lengths(draw: &mut Draw, shape: &Shape, history: usize) -> [usize; 9] {
    let least = sizes(shape);
    let mut out = [0; 9];
    for (length, least) in out.iter_mut().zip(least) {
        *length = least + draw.pick(&[0, 0, 1, 7]);
    }
    out[8] = history;
    out
}

/// Buffers of such lengths with drawn contents.
pub fn buffers(draw: &mut Draw, lengths: [usize; 9]) -> Buffers {
    let [backward, forward, table, grid, xs, ys, averages, map, history] = lengths;
    Buffers {
        backward: draw.bytes(backward),
        forward: draw.bytes(forward),
        table: draw.bytes(table),
        grid: (0..grid).map(|_| draw.any_i32()).collect(),
        xs: (0..xs).map(|_| draw.any_i32() as u16).collect(),
        ys: (0..ys).map(|_| draw.any_i32() as u16).collect(),
        averages: draw.bytes(averages),
        map: draw.bytes(map),
        history: draw.bytes(history),
    }
}

/// Buffers of such lengths by a rule: element i of buffer b, from 0, is (seed + 31 i + 101 b) modulo 251, whatever its type.
pub fn filled(seed: u32, lengths: [usize; 9]) -> Buffers {
    let rule = |b: usize| (0..lengths[b]).map(move |i| ((seed as usize + 31 * i + 101 * b) % 251) as u8);
    Buffers {
        backward: rule(0).collect(),
        forward: rule(1).collect(),
        table: rule(2).collect(),
        grid: rule(3).map(i32::from).collect(),
        xs: rule(4).map(u16::from).collect(),
        ys: rule(5).map(u16::from).collect(),
        averages: rule(6).collect(),
        map: rule(7).collect(),
        history: rule(8).collect(),
    }
}
