//! The session's calls on any session and any buffers, as paper 01 fixes them ('On buffers that are not as the last call left them')
//! and paper 02 the counts that a session keeps (1/14), the runs that undo and redo take (2/14) and the pool of two payloads (3/14).

use crate::class::{class, counts};
use crate::entry::Entry;
use crate::fields::Class;
use crate::history::{Step, append, clear, future_run, past_run};
use crate::luma::{average, map_byte, score};
use crate::modulo::wrapped;
use crate::numbers;
use crate::planes::{pack, pack_block};
use crate::pooled;
use crate::scatter::{grid, products};
use crate::session::{Answer, Buffers, Counts, Limits, Session};
use crate::shape::Shape;
use crate::update::copy;

const fn answer(number: u32, session: Session) -> Answer {
    Answer { number, session }
}

// ---- made afresh

fn fill_grid(s: &Session, b: &mut Buffers) {
    let cells = grid(&s.shape, s.time, b.set(s.side));
    b.grid[..cells.len()].copy_from_slice(&cells);
}

/// The score of a block of the shown side as the sets and the table stand; the lent averages may hold anything.
fn score_of(s: &Session, block: usize, b: &Buffers) -> i32 {
    score(Entry::at(b.set(s.side), block).sad, average(&b.table, &b.backward, &b.forward, block))
}

/// All that follows from the sets as they stand, and slots without a step. The counts are handed back.
fn rebuild(s: &Session, b: &mut Buffers) -> Counts {
    fill_grid(s, b);
    let set = if s.side == 1 { &b.backward } else { &b.forward };
    pack(&s.shape, set, &mut b.xs, &mut b.ys);
    for block in 0..s.shape.blocks() {
        renew(s, block, b);
    }
    clear(&mut b.history);
    counts(&s.limits, (0..s.shape.blocks()).map(|block| score_of(s, block, b)))
}

/// A session without steps, all made afresh.
fn renewed(session: Session, b: &mut Buffers) -> Session {
    let emptied = Session { past: 0, future: 0, ..session };
    Session { kept: rebuild(&emptied, b), ..emptied }
}

/// A block's average and map byte.
fn renew(s: &Session, block: usize, b: &mut Buffers) {
    b.averages[block] = average(&b.table, &b.backward, &b.forward, block);
    b.map[block] = map_byte(&s.limits, b.set(s.side), &b.averages, block);
}

// ---- patched

/// What a block gives to the counts: those of its score alone.
fn weight(s: &Session, block: usize, b: &Buffers) -> Counts {
    counts(&s.limits, [score_of(s, block, b)])
}

/// One entry of one side becomes another, and what depends on it follows. The counts are handed back.
fn edit(s: &Session, side: u32, block: usize, new: Entry, b: &mut Buffers) -> Counts {
    let before = weight(s, block, b);
    let old = Entry::at(b.set(side), block);
    new.put(b.set_mut(side), block);
    if side == s.side {
        for (cell, product) in products(&s.shape, s.time, block, old) {
            b.grid[cell] = b.grid[cell].wrapping_sub(wrapped(product));
        }
        for (cell, product) in products(&s.shape, s.time, block, new) {
            b.grid[cell] = b.grid[cell].wrapping_add(wrapped(product));
        }
        let set = if side == 1 { &b.backward } else { &b.forward };
        pack_block(&s.shape, set, block, &mut b.xs, &mut b.ys);
    }
    renew(s, block, b);
    s.kept.moved(&before, &weight(s, block, b))
}

/// Step after step, its block gets one of the step's entries, each edit on what the one before left. The counts are handed back.
fn edit_each(s: &Session, run: &[Step], given: impl Fn(&Step) -> Entry, b: &mut Buffers) -> Counts {
    run.iter().fold(s.kept, |kept, step| edit(&Session { kept, ..*s }, step.side, step.block as usize, given(step), b))
}

// ---- the calls

/// Beside a refusal the session is all zero.
pub fn open(shape: Shape, side: u32, limits: Limits, time: i32, b: &mut Buffers) -> Answer {
    let number = numbers::open(&shape, side, time, b);
    if number != 0 {
        return answer(number, Session::default());
    }
    let session = Session { shape, side, limits, time, ..Session::default() };
    b.backward[..shape.set_size()].fill(0);
    b.forward[..shape.set_size()].fill(0);
    let kept = rebuild(&session, b);
    answer(0, Session { kept, ..session })
}

pub fn take(session: Session, payload: &[u8], b: &mut Buffers) -> Answer {
    let number = numbers::take(&session, payload, b);
    if number != 0 && !(number == 6 && session.shape.has_backward()) {
        return answer(number, session);
    }
    copy(&session.shape, payload, &mut b.backward, &mut b.forward);
    answer(number, renewed(session, b))
}

/// Refused, it writes nothing, by 6 of either payload too. Accepted, all is made afresh, also where neither side is flagged.
pub fn pool(session: Session, first: &[u8], second: &[u8], b: &mut Buffers) -> Answer {
    let number = numbers::pool(&session, first, second, b);
    if number != 0 {
        return answer(number, session);
    }
    pooled::pool(&session.shape, first, second, &mut b.backward, &mut b.forward);
    answer(0, renewed(session, b))
}

/// What a put is given.
#[derive(Clone, Copy, PartialEq, Eq, Debug)]
pub struct Put {
    pub side: u32,
    pub block: u32,
    pub x: i16,
    pub y: i16,
    pub sad: i32,
    pub luma: u8,
    /// Steps one behind another with the same are one run.
    pub gesture: u32,
}

impl Put {
    pub const fn entry(&self) -> Entry {
        Entry { x: self.x, y: self.y, sad: self.sad, luma: self.luma }
    }
}

pub fn put(session: Session, put: Put, b: &mut Buffers) -> Answer {
    let number = numbers::put(&session, put.side, put.block, put.sad, b);
    if number != 0 {
        return answer(number, session);
    }
    let (side, block, new) = (put.side, put.block as usize, put.entry());
    let step = Step { block: put.block, side, old: Entry::at(b.set(side), block), new, gesture: put.gesture };
    let kept = edit(&session, side, block, new, b);
    let past = append(&mut b.history, session.past as usize, &step) as u32;
    answer(0, Session { past, future: 0, kept, ..session })
}

/// Takes back past's run, latest step first.
pub fn undo(session: Session, b: &mut Buffers) -> Answer {
    let number = numbers::undo(&session, b);
    if number != 0 {
        return answer(number, session);
    }
    let run = past_run(&b.history, session.past as usize);
    let (kept, steps) = (edit_each(&session, &run, |step| step.old, b), run.len() as u32);
    answer(0, Session { past: session.past - steps, future: session.future + steps, kept, ..session })
}

/// Brings back future's run, its first step first.
pub fn redo(session: Session, b: &mut Buffers) -> Answer {
    let number = numbers::redo(&session, b);
    if number != 0 {
        return answer(number, session);
    }
    let run = future_run(&b.history, session.past as usize, session.future as usize);
    let (kept, steps) = (edit_each(&session, &run, |step| step.new, b), run.len() as u32);
    answer(0, Session { past: session.past + steps, future: session.future - steps, kept, ..session })
}

pub fn retime(session: Session, time: i32, b: &mut Buffers) -> Answer {
    let number = numbers::retime(&session, time, b);
    if number != 0 {
        return answer(number, session);
    }
    let session = Session { time, ..session };
    fill_grid(&session, b);
    answer(0, session)
}

/// The class of the counts that a session keeps.
pub fn kept_class(session: Session) -> Class {
    match numbers::kept_class(&session) {
        0 => Class { number: 0, value: class(session.limits.blocks, &session.kept) },
        number => Class { number, value: 0 },
    }
}
