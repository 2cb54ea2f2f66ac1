//! Lists in which each call meets each of its refusals, at the limit and one step past it, for every pair of flag bits.

use crate::calls::Put;
use crate::drawn::{self, Mix, lengths};
use crate::history::SLOT;
use crate::list::Call;
use crate::session::Limits;
use crate::shape::{Axis, Shape};
use crate::update::{BACKWARD, forward_place};
use draw::Draw;

use super::case::Case;
use super::long::{field, given};
use super::tape::Tape;

const FLAGS: [i32; 10] = [0, 1, 2, 3, -1, -2, -3, -4, i32::MIN, i32::MAX];

pub fn cases() -> Vec<Case> {
    let mut draw = Draw::new(22);
    let mut out: Vec<Case> = FLAGS.iter().map(|&flags| every_refusal(&mut draw, flags)).collect();
    out.extend(ends(&mut draw));
    out
}

fn every_refusal(draw: &mut Draw, flags: i32) -> Case {
    let shape = field(Axis::covering(8, 0, 2, 0), Axis::covering(8, 4, 1, 1), 1, 0, flags);
    let lengths = lengths(draw, &shape, 4 * SLOT + 3);
    let mut tape = Tape::opened(given(shape, 1 + (flags & 1).cast_unsigned(), Limits::USUAL, 128), lengths, 60);
    tape.extend(&[Call::Undo, Call::Redo]);
    tape.extend(&puts(&shape));
    tape.extend(&times());
    for payload in payloads(draw, &shape) {
        tape.push(&Call::Take(payload));
        tape.extend(&[Call::Redo, Call::Undo, Call::Undo]);
        tape.push(&Call::Put(drawn::put(draw, &shape, false)));
    }
    tape.back_and_forth();
    tape.finish(0)
}

/// Each argument of a put at its ends and past them, on both sides; and pairs, for the order of the numbers.
fn puts(shape: &Shape) -> Vec<Call> {
    let n = shape.blocks() as u32;
    let good = Put { side: 1, block: 0, x: 3, y: -3, sad: 900, luma: 50, gesture: 8 };
    let mut out: Vec<Put> = [0, 1, 2, 3, u32::MAX].map(|side| Put { side, ..good }).to_vec();
    out.extend([0, n - 1, n, n + 1, u32::MAX].map(|block| Put { block, ..good }));
    out.extend([-1, 0, 16_777_215, 16_777_216, i32::MIN, i32::MAX].map(|sad| Put { sad, side: 2, ..good }));
    out.extend([i16::MIN, i16::MAX].map(|x| Put { x, y: x, ..good }));
    out.extend([
        Put { side: 0, sad: -1, ..good },
        Put { block: n, sad: -1, ..good },
        Put { luma: 255, ..good },
        good,
        good,
    ]);
    out.into_iter().map(Call::Put).collect()
}

fn times() -> Vec<Call> {
    [65535, 65536, -65535, -65536, i32::MAX, i32::MIN, 256, 257, 0].map(Call::Retime).to_vec()
}

/// A whole payload, one cut at each boundary, one with each checked number changed, and one with ignored bytes changed.
fn payloads(draw: &mut Draw, shape: &Shape) -> Vec<Vec<u8>> {
    let (forward, set) = (forward_place(shape), shape.set_size());
    let whole = drawn::payload(draw, shape);
    let mut out = vec![whole.clone()];
    for boundary in [4, 8, 12, BACKWARD, BACKWARD + 4, BACKWARD + 4 + set, forward + 4, forward + 4 + set] {
        out.extend([boundary - 1, boundary].map(|end| whole[..end].to_vec()));
    }
    for (byte, bit) in [(0, 1), (3, 128), (4, 1), (7, 128), (8, 4), (11, 64), (BACKWARD, 1), (BACKWARD + 3, 128)] {
        out.push(changed(&whole, byte, bit));
    }
    for (byte, bit) in [(forward, 1), (forward + 3, 128), (12, 255), (63, 255)] {
        out.push(changed(&whole, byte, bit));
    }
    out.push(Vec::new());
    out
}

fn changed(payload: &[u8], byte: usize, bits: u8) -> Vec<u8> {
    let mut out = payload.to_vec();
    out[byte] ^= bits;
    out
}

/// Lists that end before their bytes do: an unknown command, a record that is cut, answers that are full.
fn ends(draw: &mut Draw) -> Vec<Case> {
    let shape = field(Axis::covering(8, 0, 2, 0), Axis::covering(8, 0, 2, 0), 1, 0, 3);
    let lengths = lengths(draw, &shape, 5 * SLOT);
    let mut tape = Tape::opened(given(shape, 2, Limits::USUAL, 256), lengths, 12);
    tape.push(&Call::Take(drawn::payload(draw, &shape)));
    tape.extend(&drawn::list(draw, &shape, &Mix { pool: 0, ..Mix::EVEN }, 12));
    let whole = tape.finish(4);
    let mut out = Vec::new();
    for command in [0, 7, 255] {
        let calls = [&whole.calls[..], &[command, 3, 3]].concat();
        out.push(Case { calls, ..whole.clone() });
    }
    for record in [
        &[1][..],
        &[1, 9, 0, 0],
        &[1, 3, 0, 0, 0, 7, 7],
        &[1, 255, 255, 255, 255, 0],
        &[2; 17],
        &[2; 18],
        &[2; 21],
        &[5, 0, 0, 0],
    ] {
        let calls = [&whole.calls[..], record].concat();
        out.push(Case { calls, ..whole.clone() });
    }
    out.extend([0, 1, 12, 13, 14].map(|room| Case { room, ..whole.clone() }));
    out.push(Case { calls: Vec::new(), room: 3, ..whole });
    out
}
