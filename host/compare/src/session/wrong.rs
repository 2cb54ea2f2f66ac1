//! Calls as wrong programs answer them, planted in place of the archive's: the comparison must tell each from the right one (paper 02, 2/14 and 3/14).

use model::history::{SLOT, Step, clear, depth};
use model::list::Call;
use model::numbers::{counts_good, steps_good};
use model::session::{Answer, Buffers, Counts, Session};

use crate::plant::{Part, gesture_parts};
use crate::session::wrong_pools;

/// What undo and redo take instead of the run in its order.
const ONE_STEP: &str = "one step";
const ONE_LESS: &str = "one step less";
const ONE_MORE: &str = "one step more";
const FURTHER: &str = "equal numbers further on too";
const REVERSED: &str = "the other order";
pub const TAKEN: [&str; 5] = [ONE_STEP, ONE_LESS, ONE_MORE, FURTHER, REVERSED];

/// The right steps, but the step counts move by one.
const BY_ONE: &str = "counts by one";

/// Of a run only the slot that is used first is judged.
const ONE_SLOT: &str = "one slot judged";

/// A run is refused when its bad slot is met, and what was taken until then stays.
const UNTIL_BAD: &str = "taken until the bad slot";

/// Where a put finds no room, the oldest step's whole gesture goes.
const OLDEST_GESTURE: &str = "the oldest gesture gone";

/// A put of the last step's gesture, side and block becomes that step's new entry.
const JOINED: &str = "joined to the last step";

/// D, and the least history, by slots of 24 bytes.
const BY_24: &str = "slots of 24";

/// What is planted in a call beside the parts of its answer: a gesture's bytes, and programs that are wrong in this call.
pub fn parts(call: &str) -> Vec<Part> {
    let programs = match call {
        "undo" | "redo" => [&TAKEN[..], &[BY_ONE, ONE_SLOT, UNTIL_BAD, BY_24]].concat(),
        "put" => vec![OLDEST_GESTURE, JOINED, BY_24],
        "pool" => [wrong_pools::all(), vec![BY_24]].concat(),
        _ => vec![BY_24],
    };
    let gesture = (call == "put").then(gesture_parts);
    gesture.into_iter().flatten().chain(programs.into_iter().map(Part::Program)).collect()
}

/// Programs after which all that was undone and done again is not as it was. Of undo there is none: a redo gives each block its new entry.
pub fn not_brought_back(call: &str) -> Vec<Part> {
    let programs = if call == "redo" { &[ONE_STEP, ONE_LESS, REVERSED][..] } else { &[] };
    programs.iter().copied().map(Part::Program).collect()
}

/// What a program answers and leaves. Where it is not wrong it does what the model does.
pub fn answered(program: &str, call: &Call, session: Session, b: &mut Buffers) -> Answer {
    match call {
        _ if program == BY_24 => by_24(b, |b| call.run(session, b)),
        Call::Put(_) => put(program, call, session, b),
        Call::Pool { first, second } => wrong_pools::answered(program, session, [first, second], b),
        _ => step(program, call, session, b),
    }
}

/// A call that counts slots of 24 bytes: it finds as many as the right one in a longer history.
pub fn by_24(b: &mut Buffers, call: impl FnOnce(&mut Buffers) -> Answer) -> Answer {
    let length = b.history.len();
    b.history.resize(length.max(length / 24 * SLOT), 0);
    let answer = call(b);
    b.history.truncate(length);
    answer
}

/// How many steps at the start have the gesture of the first.
fn run(steps: &[Step]) -> usize {
    steps.chunk_by(|a, b| a.gesture == b.gesture).next().map_or(0, <[Step]>::len)
}

// ---- undo and redo

fn step(program: &str, call: &Call, session: Session, b: &mut Buffers) -> Answer {
    let right = call.run(session, &mut b.clone());
    let listed = listed(call, &session, &b.history);
    match right.number {
        0 if program == BY_ONE => moved(call, session, 1, call.run(session, b).session.kept),
        0 => taken(call, session, &instead(program, &listed), b),
        11 if counts_good(&session, b) => judged(program, call, session, &listed[..run(&listed)], b),
        _ => right,
    }
}

/// The steps of the list that a call takes from, in the order in which it meets them.
fn listed(call: &Call, session: &Session, history: &[u8]) -> Vec<Step> {
    let (past, future) = (session.past as usize, session.future as usize);
    let at = |slot| Step::at(history, slot);
    if *call == Call::Undo {
        (0..past).rev().map_while(at).collect()
    } else {
        (past..past + future).map_while(at).collect()
    }
}

/// What is taken instead of the run.
fn instead(program: &str, listed: &[Step]) -> Vec<Step> {
    let run = run(listed);
    match program {
        ONE_STEP => listed[..1].to_vec(),
        ONE_LESS => listed[..run - 1].to_vec(),
        ONE_MORE => listed[..listed.len().min(run + 1)].to_vec(),
        FURTHER => listed.iter().copied().filter(|step| step.gesture == listed[0].gesture).collect(),
        REVERSED => listed[..run].iter().copied().rev().collect(),
        _ => listed[..run].to_vec(),
    }
}

/// A run with a bad slot, of which the right program takes nothing.
fn judged(program: &str, call: &Call, session: Session, run: &[Step], b: &mut Buffers) -> Answer {
    let good = run.iter().take_while(|&&step| steps_good(&session.shape, &[step])).count();
    if program == ONE_SLOT && good > 0 {
        return taken(call, session, run, b);
    }
    if program == UNTIL_BAD {
        taken(call, session, &run[..good], b);
    }
    Answer { number: 11, session }
}

/// Takes steps one by one, each as the one step of a history of its own, where one with a bad side or block is refused.
fn taken(call: &Call, session: Session, steps: &[Step], b: &mut Buffers) -> Answer {
    let history = std::mem::take(&mut b.history);
    let (past, future) = if *call == Call::Undo { (1, 0) } else { (0, 1) };
    let mut kept = session.kept;
    for step in steps {
        b.history = step.bytes().to_vec();
        kept = call.run(Session { past, future, kept, ..session }, b).session.kept;
    }
    b.history = history;
    moved(call, session, steps.len() as u32, kept)
}

/// Accepted, with so many steps moved from one list to the other.
fn moved(call: &Call, session: Session, steps: u32, kept: Counts) -> Answer {
    let Session { past, future, .. } = session;
    let (past, future) =
        if *call == Call::Undo { (past - steps, future + steps) } else { (past + steps, future - steps) };
    Answer { number: 0, session: Session { past, future, kept, ..session } }
}

// ---- put

fn put(program: &str, call: &Call, session: Session, b: &mut Buffers) -> Answer {
    let past = session.past as usize;
    let mut steps: Vec<Step> = (0..past).map_while(|slot| Step::at(&b.history, slot)).collect();
    let mut answer = call.run(session, b);
    let made = (answer.session.past as usize).checked_sub(1).and_then(|slot| Step::at(&b.history, slot));
    let Some(made) = made.filter(|_| answer.number == 0) else { return answer };
    let place = |step: &Step| (step.gesture, step.side, step.block);
    match program {
        OLDEST_GESTURE if past == depth(b.history.len()) => drop(steps.drain(..run(&steps))),
        JOINED if steps.last().is_some_and(|last| place(last) == place(&made)) => {}
        _ => return answer,
    }
    match steps.last_mut() {
        Some(last) if program == JOINED => last.new = made.new,
        _ => steps.push(made),
    }
    clear(&mut b.history);
    for (slot, step) in b.history.chunks_exact_mut(SLOT).zip(&steps) {
        slot.copy_from_slice(&step.bytes());
    }
    answer.session.past = steps.len() as u32;
    answer
}
