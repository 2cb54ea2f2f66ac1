//! Sessions and buffers that no call left so: bad shapes, short buffers, bad sides and times, forged counts, slots of garbage.

use crate::calls::Put;
use crate::drawn::{self, Mix, lengths, limits, payload};
use crate::history::SLOT;
use crate::list::Call;
use crate::session::{Limits, Session};
use crate::shape::{Axis, Shape, sizes};
use draw::Draw;

use super::case::Case;
use super::long::{field, given};
use super::tape::Tape;

/// Few takes.
pub const MIX: Mix = Mix { take: 1, pool: 0, put: 40, undo: 30, redo: 20, retime: 10, bad: 8 };

pub fn cases() -> Vec<Case> {
    let mut draw = Draw::new(23);
    let mut out = Vec::new();
    shapes(&mut draw, &mut out);
    buffers(&mut draw, &mut out);
    sides_and_times(&mut draw, &mut out);
    counts(&mut draw, &mut out);
    slots(&mut draw, &mut out);
    for _ in 0..80 {
        out.push(garbage(&mut draw, &MIX, 60));
    }
    out
}

/// Two blocks by two.
pub fn shape() -> Shape {
    field(Axis::covering(8, 2, 2, 1), Axis::covering(4, 0, 2, 0), 1, 0, 3)
}

fn session(past: u32, future: u32) -> Session {
    Session { past, future, ..given(shape(), 1, Limits::USUAL, 200) }
}

fn good_put() -> Call {
    Call::Put(Put { side: 1, block: 1, x: 5, y: -2, sad: 700, luma: 9, gesture: 4 })
}

/// Each call once, and those that are refused by their own arguments too.
fn each_call(draw: &mut Draw, shape: &Shape) -> Vec<Call> {
    let bad = Put { side: 3, block: u32::MAX, x: 0, y: 0, sad: -1, luma: 0, gesture: 4 };
    let mut out = vec![good_put(), Call::Put(bad), Call::Put(Put { side: 1, block: 0, ..bad }), Call::Undo, Call::Redo];
    out.extend([Call::Retime(256), Call::Retime(65536), Call::Take(vec![16, 0, 0])]);
    if shape.accepted() {
        out.push(Call::Take(payload(draw, shape)));
    }
    out.push(good_put());
    out
}

/// The same session opened, and played on as it stands.
fn both(draw: &mut Draw, session: Session, lengths: [usize; 9], out: &mut Vec<Case>) {
    let calls = each_call(draw, &session.shape);
    for mut tape in [Tape::opened(session, lengths, 8), Tape::forged(session, lengths, 9)] {
        tape.extend(&calls);
        out.push(tape.finish(1));
    }
}

/// Each judged field one step past both ends and at a third value: an overlap at its upper end, the others farther out.
fn shapes(draw: &mut Draw, out: &mut Vec<Case>) {
    let lengths = [512, 512, 511, 512, 256, 256, 64, 64, 3 * SLOT];
    for (field, values) in [
        (1, [0, 257, -1]),
        (2, [0, 257, i32::MIN]),
        (3, [0, 65, i32::MAX]),
        (4, [0, 65536, -5]),
        (5, [0, 65536, i32::MIN]),
        (6, [-1, 8, 7]),
        (7, [-1, 4, 3]),
        (8, [0, 1025, 65536]),
        (9, [0, 1025, i32::MAX]),
    ] {
        for value in values {
            let mut fields = shape().fields();
            fields[field] = value;
            let session = Session { shape: Shape::from_fields(fields), ..session(0, 0) };
            both(draw, session, lengths, out);
        }
    }
    both(draw, Session::default(), lengths, out);
}

/// Each of the nine buffers with its size, one element short, and empty.
fn buffers(draw: &mut Draw, out: &mut Vec<Case>) {
    let mut least = [0; 9];
    least.copy_from_slice(&sizes(&shape())[..9]);
    both(draw, session(0, 0), least, out);
    for buffer in 0..9 {
        for length in [least[buffer] - 1, 0] {
            let mut lengths = least;
            lengths[buffer] = length;
            both(draw, session(0, 0), lengths, out);
        }
    }
    // 3 comes before 8 and 7
    least[2] = 510;
    both(draw, Session { side: 0, time: 70_000, ..session(0, 0) }, least, out);
}

fn sides_and_times(draw: &mut Draw, out: &mut Vec<Case>) {
    let lengths = lengths(draw, &shape(), 3 * SLOT + 5);
    for side in [0, 3, u32::MAX] {
        both(draw, Session { side, ..session(0, 0) }, lengths, out);
        both(draw, Session { side, time: 65536, ..session(1, 1) }, lengths, out);
    }
    for time in [65535, 65536, -65535, -65536, i32::MIN, i32::MAX] {
        both(draw, Session { time, ..session(1, 0) }, lengths, out);
    }
}

/// Counts about D, and counts whose sum would wrap; each with the calls that judge them and those that don't.
fn counts(draw: &mut Draw, out: &mut Vec<Case>) {
    let most = u32::MAX;
    for depth in [1, 2, 5] {
        let lengths = lengths(draw, &shape(), depth as usize * SLOT + 7);
        for (past, future) in [
            (depth, 0),
            (depth + 1, 0),
            (0, depth),
            (0, depth + 1),
            (depth, 1),
            (1, depth),
            (depth - 1, 1),
            (most, most),
            (most, 1),
            (1, most),
            (most, 0),
            (0, most),
        ] {
            let mut tape = Tape::forged(session(past, future), lengths, 17 + depth);
            let calls = [Call::Undo, Call::Redo, Call::Retime(-257), good_put(), Call::Undo, Call::Undo, Call::Redo];
            tape.extend(&calls);
            tape.push(&Call::Take(vec![1]));
            tape.push(&Call::Take(payload(draw, &shape())));
            tape.extend(&calls);
            out.push(tape.finish(0));
        }
    }
}

/// Counts within D over slots of garbage; a put makes one slot good, and undo and redo use it before they meet garbage again.
fn slots(draw: &mut Draw, out: &mut Vec<Case>) {
    for seed in 0..12 {
        let lengths = lengths(draw, &shape(), 6 * SLOT);
        let (past, future) = (draw.between(1, 4).cast_unsigned(), draw.between(0, 2).cast_unsigned());
        let mut tape = Tape::forged(session(past, future), lengths, 251 + 13 * seed);
        tape.extend(&[Call::Redo, Call::Undo, good_put(), Call::Undo, Call::Redo, Call::Undo, Call::Undo, Call::Redo]);
        tape.extend(&[good_put(), good_put(), good_put(), good_put(), good_put()]);
        tape.back_and_forth();
        out.push(tape.finish(0));
    }
}

/// A drawn shape, drawn small counts, garbage everywhere, and a list of so many calls.
pub fn garbage(draw: &mut Draw, mix: &Mix, count: usize) -> Case {
    let shape = drawn::shape(draw, 4);
    let history = draw.between(1, 12) as usize * SLOT + draw.between(0, SLOT as i32 - 1) as usize;
    let lengths = lengths(draw, &shape, history);
    let (past, future) = (draw.between(0, 7).cast_unsigned(), draw.between(0, 7).cast_unsigned());
    let session = given(shape, draw.pick(&[1, 2]), limits(draw), drawn::time(draw));
    let session = Session { past, future, ..session };
    let mut tape = Tape::forged(session, lengths, draw.between(0, 999_999).cast_unsigned());
    tape.extend(&drawn::list(draw, &shape, mix, count));
    tape.finish(draw.pick(&[0, 2]))
}
