//! The number of each session call on any session and any buffers: the table under 'Refused calls', in its order, and 12 of paper 02; 11 looks at
//! every slot of a run (paper 02, 2/14), and a pool has 4, 5 and 6 of two payloads (3/14). 0 is accepted.

use crate::history::{Step, depth, future_run, past_run};
use crate::pooled::pooled_number;
use crate::session::{Buffers, Session};
use crate::shape::Shape;
use crate::update::payload_number;

// ---- conditions

pub fn side_good(side: u32) -> bool {
    matches!(side, 1 | 2)
}

pub fn block_good(shape: &Shape, block: u32) -> bool {
    (block as usize) < shape.blocks()
}

pub fn time_good(time: i32) -> bool {
    (-65535..=65535).contains(&time)
}

pub fn sad_good(sad: i32) -> bool {
    (0..=16_777_215).contains(&sad)
}

/// The step counts, summed as they are, are at most D.
pub fn counts_good(session: &Session, buffers: &Buffers) -> bool {
    u64::from(session.past) + u64::from(session.future) <= depth(buffers.history.len()) as u64
}

/// No kept count is more than n.
pub fn kept_good(session: &Session) -> bool {
    session.kept.fields().iter().all(|&count| count as usize <= session.shape.blocks())
}

/// 2 and 3, which come before all else.
fn lent(shape: &Shape, buffers: &Buffers) -> u32 {
    if !shape.accepted() {
        2
    } else if !buffers.fit(shape) {
        3
    } else {
        0
    }
}

/// 8 and 7 behind what comes before them.
fn shown(before: u32, side: u32, time: i32) -> u32 {
    match before {
        0 if !side_good(side) => 8,
        0 if !time_good(time) => 7,
        number => number,
    }
}

/// What a session call checks of what it carries; open, of what it is given.
fn carried(shape: &Shape, side: u32, time: i32, buffers: &Buffers) -> u32 {
    shown(lent(shape, buffers), side, time)
}

// ---- the calls

pub fn open(shape: &Shape, side: u32, time: i32, buffers: &Buffers) -> u32 {
    carried(shape, side, time, buffers)
}

pub fn take(s: &Session, payload: &[u8], buffers: &Buffers) -> u32 {
    match carried(&s.shape, s.side, s.time, buffers) {
        0 => payload_number(&s.shape, payload),
        number => number,
    }
}

pub fn pool(s: &Session, first: &[u8], second: &[u8], buffers: &Buffers) -> u32 {
    match carried(&s.shape, s.side, s.time, buffers) {
        0 => pooled_number(&s.shape, first, second),
        number => number,
    }
}

/// 8 comes before 7: its own side and block before the time that the session carries.
pub fn put(s: &Session, side: u32, block: u32, sad: i32, buffers: &Buffers) -> u32 {
    match lent(&s.shape, buffers) {
        0 if !side_good(s.side) || !side_good(side) || !block_good(&s.shape, block) => 8,
        0 if !time_good(s.time) || !sad_good(sad) => 7,
        0 if !counts_good(s, buffers) => 11,
        number => number,
    }
}

/// Each step has a side and a block of this shape.
pub fn steps_good(shape: &Shape, steps: &[Step]) -> bool {
    steps.iter().all(|step| side_good(step.side) && block_good(shape, step.block))
}

/// 11 by the counts, then by the run, which is read only where they are good.
fn run_good(s: &Session, buffers: &Buffers, run: impl Fn(&[u8]) -> Vec<Step>) -> bool {
    counts_good(s, buffers) && steps_good(&s.shape, &run(&buffers.history))
}

pub fn undo(s: &Session, buffers: &Buffers) -> u32 {
    match carried(&s.shape, s.side, s.time, buffers) {
        0 if s.past == 0 => 9,
        0 if !run_good(s, buffers, |history| past_run(history, s.past as usize)) => 11,
        number => number,
    }
}

pub fn redo(s: &Session, buffers: &Buffers) -> u32 {
    match carried(&s.shape, s.side, s.time, buffers) {
        0 if s.future == 0 => 10,
        0 if !run_good(s, buffers, |history| future_run(history, s.past as usize, s.future as usize)) => 11,
        number => number,
    }
}

pub fn retime(s: &Session, time: i32, buffers: &Buffers) -> u32 {
    match carried(&s.shape, s.side, s.time, buffers) {
        0 if !time_good(time) => 7,
        number => number,
    }
}

/// It is lent no buffer, so that 3 can't arise.
pub fn kept_class(s: &Session) -> u32 {
    match shown(if s.shape.accepted() { 0 } else { 2 }, s.side, s.time) {
        0 if !kept_good(s) => 12,
        number => number,
    }
}
