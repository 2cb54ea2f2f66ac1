//! The counts that a session keeps. After an open, and a take that is refused by 6, edits of what these made afresh. Then forged counts: each
//! at its ends, with edits of either side that take it past them; edits that hang on the average before them, where the lent one is wrong;
//! the refusals of the kept class in their order; any counts over garbage.

use crate::calls::Put;
use crate::drawn::{self, counts, filled, lengths};
use crate::entry::Entry;
use crate::history::SLOT;
use crate::list::Call;
use crate::luma::{average, score, score_at};
use crate::session::{Counts, Limits, Session};
use crate::shape::Shape;
use draw::Draw;

use super::case::Case;
use super::forged::{MIX, garbage, shape};
use super::long::given;
use super::tape::Tape;

pub fn cases() -> Vec<Case> {
    let mut draw = Draw::new(24);
    let mut out = opened(&mut draw);
    out.extend(ends(&mut draw));
    out.extend(damaged(&mut draw));
    out.extend(refusals(&mut draw));
    for _ in 0..24 {
        let case = garbage(&mut draw, &MIX, 60);
        let kept = counts(&mut draw, case.session.shape.blocks());
        out.push(Case { session: Session { kept, ..case.session }, ..case });
    }
    out
}

/// With this seed the table holds 250 at 0 and 30 at 1. Each score of the forward set is above the mark, each of the backward one below 0.
const SEED: u32 = 48;
const MARK: i32 = 2000;

/// A score that reaches the mark is one of a count, and no other count hangs on it.
const fn limits(count: usize, mark: i32, blocks: i32) -> Limits {
    let limits = Limits { blocks, zero: i32::MIN, m1: i32::MAX, m2: i32::MAX, scene: i32::MAX };
    match count {
        0 => Limits { zero: mark, ..limits },
        1 => Limits { scene: mark, ..limits },
        2 => Limits { m2: mark, ..limits },
        _ => Limits { m1: mark, ..limits },
    }
}

/// Where 0 reaches the mark, each block of an open does, and one of a large sad does not: its product wraps. Of a payload without its last byte
/// the backward half is taken.
fn opened(draw: &mut Draw) -> Vec<Case> {
    let lengths = lengths(draw, &shape(), 3 * SLOT);
    let mut out = Vec::new();
    for count in 0..4 {
        for side in [1, 2] {
            let mut payload = drawn::payload(draw, &shape());
            payload.pop();
            for calls in [vec![], vec![Call::Take(payload)]] {
                let mut tape = Tape::opened(given(shape(), side, limits(count, 0, 75), 128), lengths, SEED);
                tape.extend(&calls);
                for (side, block, sad) in [(1, 0, 16_000_000), (2, 1, 16_000_000), (1, 2, 500)] {
                    tape.push(&Call::Put(Put { side, block, x: 7, y: 0, sad, luma: 60, gesture: block / 2 }));
                }
                tape.back_and_forth();
                out.push(tape.finish(0));
            }
        }
    }
    out
}

/// Each of the counts at 0, n, n + 1 and 2^32 - 1, the others good, at either side: the count ends one higher at side 1, one lower at side 2.
fn ends(draw: &mut Draw) -> Vec<Case> {
    let (lengths, n) = (lengths(draw, &shape(), 4 * SLOT), shape().blocks() as u32);
    let mut out = Vec::new();
    for count in 0..4 {
        for (value, blocks) in [(0, 50), (n, 75), (n + 1, i32::MAX), (u32::MAX, 100)] {
            for side in [1, 2] {
                let mut kept = [n, 1, 1, 1];
                kept[count] = value;
                let session = given(shape(), side, limits(count, MARK, blocks), 256);
                let session = Session { past: 0, future: 0, kept: Counts::from_fields(kept), ..session };
                let mut tape = Tape::forged(session, lengths, SEED);
                tape.extend(&edits(side));
                tape.back_and_forth();
                out.push(tape.finish(0));
            }
        }
    }
    out
}

/// Block 0 is taken to the mark and from it by the hidden side's luma, and stays there; block 1 is taken from it by the shown side's sad. Each
/// put is a gesture of its own.
fn edits(shown: u32) -> [Call; 9] {
    let put = |side, block, sad, luma, gesture| Call::Put(Put { side, block, x: 3, y: -3, sad, luma, gesture });
    let hidden = 3 - shown;
    // 1020 is this sad's score by an average of 250, 8500 by one of 30
    let (low, high) = (put(hidden, 0, 7, 0, 3), put(hidden, 0, 7, 1, 2));
    let (block_0, block_1) = (put(shown, 0, 1000, 0, 1), put(shown, 1, 0, 9, 4));
    [block_0, high, low, Call::Undo, Call::Undo, Call::Redo, block_1, Call::Undo, Call::Redo]
}

/// A block's score by the average that the sets give reaches the mark where that by the lent one does not, or the reverse; its first edit is
/// on the shown side or on the hidden one.
fn damaged(draw: &mut Draw) -> Vec<Case> {
    let lengths = lengths(draw, &shape(), 2 * SLOT);
    let b = filled(SEED, lengths);
    let mut out = Vec::new();
    for side in [1, 2] {
        for block in 0..shape().blocks() {
            let right = score(Entry::at(b.set(side), block).sad, average(&b.table, &b.backward, &b.forward, block));
            let mark = right.max(score_at(b.set(side), &b.averages, block));
            for edited in [side, 3 - side] {
                let session = given(shape(), side, limits(block, mark, 100), -256);
                let kept = Counts { counted: 4, scene: 1, m2: 2, m1: 0 };
                let mut tape = Tape::forged(Session { past: 0, future: 0, kept, ..session }, lengths, SEED);
                let put = Put { side: edited, block: block as u32, x: -4, y: 9, sad: 0, luma: 200, gesture: 0 };
                tape.extend(&[Call::Put(put), Call::Undo]);
                out.push(tape.finish(1));
            }
        }
    }
    out
}

/// Every mixture of a bad shape, a bad side and a bad time, with a count that is bad too; then bad step counts, of which the kept class knows
/// nothing.
fn refusals(draw: &mut Draw) -> Vec<Case> {
    let lengths = lengths(draw, &shape(), 2 * SLOT);
    let mixtures = (0..8usize).map(|turn| {
        let mut kept = [0; 4];
        kept[turn % 4] = [5, u32::MAX][turn / 4];
        let shape = if turn & 1 == 0 { shape() } else { Shape { pel: 0, ..shape() } };
        let (side, time) = (if turn & 2 == 0 { 2 } else { 3 }, if turn & 4 == 0 { -65_535 } else { 65_536 });
        let session = given(shape, side, Limits::USUAL, time);
        let kept = Counts::from_fields(kept);
        let mut tape = Tape::forged(Session { past: 0, future: 0, kept, ..session }, lengths, SEED);
        tape.extend(&[Call::Undo, Call::Retime(65_535)]);
        tape.finish(0)
    });
    let kept = Counts { counted: 4, scene: 0, m2: 3, m1: 4 };
    let session = Session { past: u32::MAX, future: u32::MAX, kept, ..given(shape(), 1, Limits::USUAL, 0) };
    let mut steps = Tape::forged(session, lengths, SEED);
    steps.extend(&[Call::Undo, Call::Redo]);
    mixtures.chain([steps.finish(0)]).collect()
}
