//! Undo and redo of runs: the steps of one gesture, with a full list.

use std::time::Instant;

use boundary::session::{self as archive, Lent};
use model::session::{Answer, Session};

use crate::clock::{Times, samples};
use crate::session::{Open, Rebuild};

/// The steps of a run: one, a wheel turn, and all that a history keeps.
const LENGTHS: [usize; 3] = [1, 40, DEEPEST];

const DEEPEST: usize = 4096;

/// What is timed of each run.
pub const MOVES: [&str; 6] = ["undo 1", "redo 1", "undo 40", "redo 40", "undo 4096", "redo 4096"];

/// How it is timed, in words.
pub const HOW: &str = "\
The undo list is full, at D 4096, of gestures of 1, 40 and 4096 steps, each step of another block. A sample is 256, 6 and 1 calls.
All gestures undone must leave what the Rust makes, and redone every byte that was there before.
";

/// Times of undo and redo for each length. The session keeps 4096 steps.
pub fn timed(open: &mut Open, rust: &Rebuild) -> Result<[Times; 6], String> {
    let mut times = Vec::new();
    for steps in LENGTHS {
        fill(open, steps)?;
        agree(open, rust, steps)?;
        times.extend(moved(open, steps)?);
    }
    times.try_into().map_err(|_| String::from("not every run was timed"))
}

/// As many steps as are kept, in gestures of so many; where they do not go up, the oldest has fewer.
fn fill(open: &mut Open, steps: usize) -> Result<(), String> {
    let refused = open.take() + (0..DEEPEST).map(|turn| open.put(turn, (DEEPEST - 1 - turn) / steps)).sum::<u32>();
    accepted(refused)
}

fn accepted(refused: u32) -> Result<(), String> {
    if refused == 0 { Ok(()) } else { Err(String::from("an edit was refused")) }
}

/// Undoes all gestures and makes them again.
fn agree(open: &mut Open, rust: &Rebuild, steps: usize) -> Result<(), String> {
    let (session, own) = (open.session, open.own.clone());
    let gestures = DEEPEST.div_ceil(steps);
    let mut refused: u32 = (0..gestures).map(|_| open.call(archive::undo)).sum();
    let undone = open.session.past == 0 && rust.same(open);
    refused += (0..gestures).map(|_| open.call(archive::redo)).sum::<u32>();
    accepted(refused)?;
    if undone && open.session == session && open.own == own {
        return Ok(());
    }
    Err(format!("runs of {steps}: undo or redo leaves something else than it should; run compare"))
}

type Call = fn(Session, &mut Lent) -> Answer;

/// Times of undo and redo of one run each, a sample being some 256 steps or one run.
fn moved(open: &mut Open, steps: usize) -> Result<[Times; 2], String> {
    let (calls, mut refused) = ((256 / steps).max(1), 0);
    let mut times = [(); 2].map(|()| Vec::new());
    for _ in 0..samples() {
        for (call, times) in [archive::undo as Call, archive::redo].into_iter().zip(&mut times) {
            let start = Instant::now();
            for _ in 0..calls {
                refused += open.call(call);
            }
            times.push(start.elapsed().as_nanos() as f64 / calls as f64);
        }
    }
    accepted(refused)?;
    Ok(times.map(Times::of))
}
