//! Runs of steps with one gesture (paper 02, 2/14): wheel turns among other calls, runs cut short as the oldest steps go, several steps of one
//! block, numbers that differ in one byte or are used again, and slots of garbage at a run's far end and just outside it.

use crate::calls::Put;
use crate::drawn::{self, filled, lengths, limits, payload};
use crate::history::{SLOT, Step};
use crate::list::Call;
use crate::session::{Limits, Session};
use draw::Draw;

use super::case::Case;
use super::forged::shape;
use super::long::given;
use super::tape::Tape;

pub fn cases() -> Vec<Case> {
    let mut draw = Draw::new(25);
    let mut out = turns(&mut draw);
    out.extend(cut_short(&mut draw));
    out.extend(one_block(&mut draw));
    out.extend([near(&mut draw), back_again(&mut draw), joined(&mut draw)]);
    out.extend(bad_ends(&mut draw));
    out
}

/// An accepted put of a gesture.
fn put(draw: &mut Draw, gesture: u32) -> Call {
    Call::Put(Put { gesture, ..drawn::put(draw, &shape(), false) })
}

/// Some puts of one gesture.
fn turn(draw: &mut Draw, gesture: u32, count: usize) -> Vec<Call> {
    (0..count).map(|_| put(draw, gesture)).collect()
}

/// A tape that begins with an open, at a depth.
fn opened(draw: &mut Draw, side: u32, depth: usize) -> Tape {
    let surplus = draw.pick(&[0, 0, 1, SLOT - 1]);
    let lengths = lengths(draw, &shape(), depth * SLOT + surplus);
    let session = given(shape(), side, limits(draw), drawn::time(draw));
    Tape::opened(session, lengths, draw.between(0, 999).cast_unsigned())
}

/// Turns of forty puts at depths about theirs. Between them one is undone and redone, a put is refused, and the time is another.
fn turns(draw: &mut Draw) -> Vec<Case> {
    let mut out = Vec::new();
    for (case, depth) in [1, 2, 39, 40, 41, 80, 100, 201].into_iter().enumerate() {
        let mut tape = opened(draw, 1 + case as u32 % 2, depth);
        tape.push(&Call::Take(payload(draw, &shape())));
        for gesture in [5, 6, 5, 5, 7] {
            tape.extend(&turn(draw, gesture, 40));
            tape.extend(&[Call::Undo, Call::Redo, Call::Retime(drawn::time(draw))]);
            tape.push(&Call::Put(Put { gesture, ..drawn::put(draw, &shape(), true) }));
        }
        tape.back_and_forth();
        tape.extend(&[Call::Redo, Call::Undo, Call::Undo, put(draw, 6), Call::Redo]);
        tape.back_and_forth();
        out.push(tape.finish(0));
    }
    out
}

/// Two gestures of more steps than there is room for: of the older, or of both, the oldest steps are gone and not undone.
fn cut_short(draw: &mut Draw) -> Vec<Case> {
    let mut out = Vec::new();
    for (older, later) in [(2, 4), (4, 4), (5, 1), (1, 5), (3, 7), (6, 6)] {
        let mut tape = opened(draw, 1 + older as u32 % 2, 5);
        tape.extend(&turn(draw, 1, older));
        tape.extend(&turn(draw, 2, later));
        tape.extend(&[Call::Undo, Call::Undo, Call::Undo, Call::Redo, Call::Redo, Call::Redo]);
        tape.extend(&turn(draw, 2, 2));
        tape.back_and_forth();
        out.push(tape.finish(0));
    }
    out
}

/// Six steps of one block in a run, or three on each side of it, with a step of another block among them.
fn one_block(draw: &mut Draw) -> Vec<Case> {
    let mut out = Vec::new();
    for (shown, sides) in [(1, [1, 1]), (1, [2, 2]), (2, [1, 1]), (2, [1, 2])] {
        let mut tape = opened(draw, shown, 8);
        tape.push(&Call::Take(payload(draw, &shape())));
        for step in 0..7 {
            let (block, side) = (if step == 3 { 0 } else { 3 }, sides[step % 2]);
            tape.push(&Call::Put(Put { side, block, gesture: 9, ..drawn::put(draw, &shape(), false) }));
        }
        tape.extend(&[Call::Undo, Call::Redo, Call::Undo, Call::Retime(-200), Call::Redo]);
        tape.back_and_forth();
        out.push(tape.finish(0));
    }
    out
}

/// Numbers of which each differs from the one before in a single byte are gestures of their own.
fn near(draw: &mut Draw) -> Case {
    let mut tape = opened(draw, 2, 30);
    for gesture in [0, 1, 0x0101, 0x0001_0101, 0x0101_0101, 0x8101_0101, u32::MAX, u32::MAX - 1] {
        tape.extend(&turn(draw, gesture, 2));
    }
    tape.back_and_forth();
    tape.finish(0)
}

/// A number that stands further back too: neither undo nor redo reaches beyond the steps between.
fn back_again(draw: &mut Draw) -> Case {
    let mut tape = opened(draw, 1, 30);
    for (gesture, count) in [(7, 3), (8, 1), (7, 2), (8, 2), (7, 1)] {
        tape.extend(&turn(draw, gesture, count));
    }
    tape.back_and_forth();
    tape.extend(&[Call::Undo, Call::Undo, Call::Redo]);
    tape.finish(0)
}

/// A put of the gesture that past ends with makes its run longer; one of the gesture that future began with does not bring future back.
fn joined(draw: &mut Draw) -> Case {
    let mut tape = opened(draw, 2, 30);
    for (gesture, count) in [(7, 3), (8, 2)] {
        tape.extend(&turn(draw, gesture, count));
    }
    tape.extend(&[Call::Undo, put(draw, 7), Call::Redo, Call::Undo, Call::Redo]);
    tape.extend(&turn(draw, 8, 2));
    tape.extend(&[Call::Undo, put(draw, 8), Call::Redo, Call::Undo]);
    tape.back_and_forth();
    tape.finish(0)
}

/// Puts behind a slot of garbage, whose side and block are bad. With its gesture they can't be undone, until a put of another gesture can,
/// alone; with a gesture that differs in one byte they can, and the next undo meets the garbage.
fn bad_ends(draw: &mut Draw) -> Vec<Case> {
    let mut out = Vec::new();
    for (count, byte) in [(1, 0), (2, 1), (3, 2), (4, 3)] {
        for near in [0, 1 << (8 * byte)] {
            let lengths = lengths(draw, &shape(), 8 * SLOT + 5);
            let seed = draw.between(0, 999).cast_unsigned();
            let garbage = Step::at(&filled(seed, lengths).history, 1).map_or(0, |step| step.gesture);
            let session = Session { past: 2, future: 3, ..given(shape(), 1 + byte % 2, Limits::USUAL, 256) };
            let mut tape = Tape::forged(session, lengths, seed);
            tape.extend(&turn(draw, garbage ^ near, count));
            tape.extend(&[Call::Undo, Call::Redo, Call::Undo, Call::Undo, Call::Redo]);
            tape.push(&put(draw, garbage ^ 0x0200));
            tape.extend(&[Call::Undo, Call::Undo, Call::Redo, Call::Redo]);
            out.push(tape.finish(0));
        }
    }
    out
}
