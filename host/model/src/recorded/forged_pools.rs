//! Pools on sessions and buffers that no call left so (paper 02, 3/14): what is judged before the payloads, step counts and slots, which are not
//! judged, and garbage in every buffer, which an accepted pool fills afresh and a refused one leaves.

use crate::calls::Put;
use crate::drawn::{lengths, pair};
use crate::history::{DEEPEST, SLOT};
use crate::list::Call;
use crate::session::{Limits, Session};
use crate::shape::{Shape, sizes};
use draw::Draw;

use super::case::Case;
use super::forged::{garbage, shape};
use super::long::given;
use super::pooled::{MIX, pool};
use super::tape::Tape;

pub fn cases() -> Vec<Case> {
    let mut draw = Draw::new(27);
    let mut out = shapes(&mut draw);
    out.extend(buffers(&mut draw));
    out.extend(carried(&mut draw));
    out.extend(steps(&mut draw));
    for _ in 0..16 {
        out.push(garbage(&mut draw, &MIX, 40));
    }
    out
}

fn session() -> Session {
    given(shape(), 2, Limits::USUAL, 200)
}

/// A pool that the payloads alone would not refuse, one that the first does, and one that the second does.
fn each_pool(draw: &mut Draw, shape: &Shape) -> [Call; 3] {
    let [first, second] = pair(draw, shape);
    [pool(&first, &second), pool(&first[..11], &second), pool(&first, &second[..second.len() - 1])]
}

/// Each of them on the session as it stands.
fn played(draw: &mut Draw, session: Session, lengths: [usize; 9]) -> Case {
    let mut tape = Tape::forged(session, lengths, draw.between(0, 999).cast_unsigned());
    tape.extend(&each_pool(draw, &shape()));
    tape.finish(1)
}

/// Each judged field of a shape one step past both ends.
fn shapes(draw: &mut Draw) -> Vec<Case> {
    let lengths = [512, 512, 511, 512, 256, 256, 64, 64, 3 * SLOT];
    let ends = [[0, 257], [0, 257], [0, 65], [0, 65536], [0, 65536], [-1, 8], [-1, 4], [0, 1025], [0, 1025]];
    let mut out = Vec::new();
    for (at, values) in ends.into_iter().enumerate() {
        for value in values {
            let mut fields = shape().fields();
            fields[at + 1] = value;
            out.push(played(draw, Session { shape: Shape::from_fields(fields), ..session() }, lengths));
        }
    }
    out
}

/// Buffers of exactly their sizes; then each of them one element short.
fn buffers(draw: &mut Draw) -> Vec<Case> {
    let mut least = [0; 9];
    least.copy_from_slice(&sizes(&shape())[..9]);
    let mut out = vec![played(draw, session(), least)];
    for buffer in 0..9 {
        let mut lengths = least;
        lengths[buffer] -= 1;
        out.push(played(draw, session(), lengths));
    }
    out
}

/// Sides and times at their ends and past them, and both, with a short table too.
fn carried(draw: &mut Draw) -> Vec<Case> {
    let lengths = lengths(draw, &shape(), 3 * SLOT + 5);
    let mut out: Vec<Case> = [0, 3, u32::MAX].map(|side| played(draw, Session { side, ..session() }, lengths)).to_vec();
    out.extend([65_535, 65_536, -65_535, -65_536].map(|time| played(draw, Session { time, ..session() }, lengths)));
    let both = Session { side: 0, time: 65_536, ..session() };
    let mut short = lengths;
    short[2] = 510;
    out.extend([lengths, short].map(|lengths| played(draw, both, lengths)));
    out
}

/// Step counts within D and beyond it, over slots of garbage, at each pair of flag bits. Of two lists the one ends with what refused pools leave,
/// the other has an accepted one.
fn steps(draw: &mut Draw) -> Vec<Case> {
    let (deep, most) = (DEEPEST as u32, u32::MAX);
    let counts = [(3, 0), (1, 2), (0, 3), (4, 0), (2, 2), (most, most), (0, most), (most, 1), (deep - 96, 96)];
    let mut out = Vec::new();
    for (turn, (past, future)) in counts.into_iter().enumerate() {
        let shape = Shape { flags: [3, 0, 1, 2, -1][turn % 5], ..shape() };
        let slots = if past == deep - 96 { DEEPEST + 1 } else { 3 };
        let lengths = lengths(draw, &shape, slots * SLOT + 4);
        let session = Session { shape, past, future, side: 1 + turn as u32 % 2, ..session() };
        let [accepted, by_first, by_second] = each_pool(draw, &shape);
        let put = Call::Put(Put { side: 1, block: 2, x: 6, y: -6, sad: 800, luma: 77, gesture: 4 });
        let refused = [by_first, by_second, Call::Undo, Call::Redo];
        for calls in [refused, [accepted, Call::Undo, put, Call::Redo]] {
            let mut tape = Tape::forged(session, lengths, 40 + turn as u32);
            tape.extend(&calls);
            out.push(tape.finish(0));
        }
    }
    out
}
