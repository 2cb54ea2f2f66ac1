//! Lists after an accepted open: long ones over every depth, then one for each mixture of side, block, pel, selector, flags and time.

use crate::calls::Put;
use crate::drawn::{self, Gestures, Mix, lengths, limits};
use crate::history::SLOT;
use crate::list::Call;
use crate::session::{Counts, Limits, Session};
use crate::shape::{Axis, Shape, sizes};
use draw::Draw;

use super::case::Case;
use super::tape::Tape;

pub const fn field(x: Axis, y: Axis, pel: i32, selector: i32, flags: i32) -> Shape {
    Shape { flags, selector, ..Shape::of_axes(x, y, pel) }
}

/// What open is given; the counts, of steps and of blocks, are whatever the host's memory held.
pub const fn given(shape: Shape, side: u32, limits: Limits, time: i32) -> Session {
    let kept = Counts { counted: 11, scene: 5, m2: 3, m1: 2 };
    Session { shape, side, limits, time, past: 7, future: 9, kept }
}

pub fn cases() -> Vec<Case> {
    let mut draw = Draw::new(21);
    let mut out = vec![deep(&mut draw), deep_with_surplus(&mut draw)];
    for (history, count) in [(SLOT, 2500), (2 * SLOT - 1, 800), (2 * SLOT, 2500), (2 * SLOT + 1, 800), (3 * SLOT, 1500)]
    {
        out.push(shallow(&mut draw, history, count));
    }
    out.push(shallow(&mut draw, 100 * SLOT + 5, 4000));
    for turn in 0..36 {
        out.push(mixed(&mut draw, turn, &Mix { pool: 0, ..Mix::EVEN }, 320));
    }
    for (grid_w, grid_h) in [(32, 16), (1, 1), (512, 1), (1, 512), (60, 8)] {
        out.push(wide(&mut draw, grid_w, grid_h));
    }
    out
}

/// A put of drawn arguments that is accepted.
fn put(draw: &mut Draw, shape: &Shape) -> Call {
    Call::Put(drawn::put(draw, shape, false))
}

/// 4,600 puts at D 4,096, so that the oldest steps go: wheel turns of about forty puts, then 4,096 puts of one gesture, which are all that is
/// left; then turns again, and all the way back and forth.
fn deep(draw: &mut Draw) -> Case {
    let shape = field(Axis::covering(8, 0, 3, 0), Axis::covering(8, 0, 2, 0), 1, 0, 3);
    let lengths = lengths(draw, &shape, 4096 * SLOT);
    let mut tape = Tape::opened(given(shape, 1, Limits::USUAL, 256), lengths, 3);
    tape.push(&Call::Take(drawn::payload(draw, &shape)));
    turns(draw, &shape, 400, &mut tape);
    for _ in 0..4096 {
        tape.push(&Call::Put(Put { gesture: 3, ..drawn::put(draw, &shape, false) }));
    }
    tape.extend(&[Call::Undo, Call::Redo, Call::Redo]);
    turns(draw, &shape, 104, &mut tape);
    tape.back_and_forth();
    tape.push(&Call::Redo);
    tape.finish(0)
}

/// Puts whose gestures are held for about forty of them.
fn turns(draw: &mut Draw, shape: &Shape, count: usize, tape: &mut Tape) {
    let mut gestures = Gestures::of(&[1, 2, 3], 40);
    for _ in 0..count {
        let gesture = gestures.next(draw);
        tape.push(&Call::Put(Put { gesture, ..drawn::put(draw, shape, false) }));
    }
}

/// D 4,096 with four slots of surplus: puts among other calls until 4,600 were accepted.
fn deep_with_surplus(draw: &mut Draw) -> Case {
    let shape = field(Axis::covering(16, 4, 2, 1), Axis::covering(8, 7, 3, 1), 3, 1, -1);
    let lengths = lengths(draw, &shape, 4100 * SLOT);
    let mut tape = Tape::opened(given(shape, 2, limits(draw), -257), lengths, 40);
    let mix = Mix { take: 0, pool: 0, put: 40, undo: 3, redo: 2, retime: 1, bad: 4 };
    let mut puts = 0;
    while puts < 4600 {
        let call = drawn::call(draw, &shape, &mix);
        puts += i32::from(tape.push(&call) == 0 && matches!(call, Call::Put(_)));
    }
    tape.push(&Call::Retime(65535));
    tape.back_and_forth();
    tape.finish(2)
}

/// `count` calls, and a way back and forth, with a short undo list.
fn shallow(draw: &mut Draw, history: usize, count: usize) -> Case {
    let shape =
        field(Axis::covering(8, 2, 2, 1), Axis::covering(16, 0, 3, 0), draw.pick(&[1, 3, 4]), draw.pick(&[0, 1]), 3);
    let lengths = lengths(draw, &shape, history);
    let mut tape = Tape::opened(given(shape, draw.pick(&[1, 2]), limits(draw), 200), lengths, 90);
    let mix = Mix { take: 1, pool: 0, put: 50, undo: 35, redo: 25, retime: 5, bad: 10 };
    tape.extend(&drawn::list(draw, &shape, &mix, count));
    tape.back_and_forth();
    tape.finish(1)
}

const BLOCKS: [(i32, i32); 7] = [(8, 0), (16, 8), (4, 3), (128, 0), (129, 0), (256, 255), (1, 0)];
const TIMES: [i32; 9] = [256, 257, -256, -257, 65535, -65535, 128, 0, 1];
const FLAGS: [i32; 8] = [3, 0, 1, 2, -1, -2, -3, -4];

/// One mixture; so many calls, takes among them, and a few more.
pub fn mixed(draw: &mut Draw, turn: usize, mix: &Mix, count: usize) -> Case {
    let (x, y) = (BLOCKS[turn % 7], BLOCKS[(turn / 7 + turn) % 7]);
    let rest = (turn / 2 % 2) as i32;
    let shape = field(
        Axis::covering(x.0, x.1, 1 + turn as i32 % 4, rest),
        Axis::covering(y.0, y.1, 1 + turn as i32 / 4 % 3, 1 - rest),
        [1, 3, 4][turn % 3],
        (turn / 3 % 2) as i32,
        FLAGS[turn % 8],
    );
    let history = draw.pick(&[SLOT, 3 * SLOT, 17 * SLOT + 11, 60 * SLOT]);
    let lengths = lengths(draw, &shape, history);
    let session = given(
        shape,
        1 + turn as u32 % 2,
        if turn.is_multiple_of(3) { Limits::USUAL } else { limits(draw) },
        TIMES[turn % 9],
    );
    let mut tape = Tape::opened(session, lengths, turn as u32);
    tape.extend(&drawn::list(draw, &shape, mix, count));
    for time in TIMES {
        tape.push(&Call::Retime(time));
        tape.push(&put(draw, &shape));
    }
    tape.back_and_forth();
    tape.finish(turn % 2)
}

/// As many blocks as the program has room for, or one alone, in buffers without surplus.
fn wide(draw: &mut Draw, grid_w: i32, grid_h: i32) -> Case {
    let shape = field(Axis::covering(16, 5, grid_w, 1), Axis::covering(8, 0, grid_h, 0), 4, 0, 3);
    let mut lengths = [0; 9];
    lengths.copy_from_slice(&sizes(&shape)[..9]);
    lengths[8] = 50 * SLOT;
    let mut tape = Tape::opened(given(shape, 1 + grid_w as u32 % 2, Limits::USUAL, 250), lengths, 7);
    for time in [256, 257, -31] {
        tape.push(&Call::Take(drawn::payload(draw, &shape)));
        let mix = Mix { take: 0, pool: 0, put: 30, undo: 8, redo: 6, retime: 1, bad: 10 };
        tape.extend(&drawn::list(draw, &shape, &mix, 120));
        tape.push(&Call::Retime(time));
    }
    tape.back_and_forth();
    tape.finish(0)
}
