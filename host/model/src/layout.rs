//! A machine state in session and buffers (paper 01, 'Compared after a list are'), the counts that the session keeps among them (paper 02, 1/14).

use crate::class::counts;
use crate::entry::Entry;
use crate::history::{SLOT, depth};
use crate::luma::{level, score};
use crate::machine::Machine;
use crate::planes::pack;
use crate::scatter::grid;
use crate::session::{Buffers, Counts, Limits, Session};
use crate::shape::Shape;

/// What open is given beside the time, which the machine holds.
#[derive(Clone, Copy)]
pub struct Opened {
    pub shape: Shape,
    pub side: u32,
    pub limits: Limits,
}

fn session(opened: &Opened, machine: &Machine, kept: Counts) -> Session {
    let Opened { shape, side, limits } = *opened;
    let (past, future) = (machine.past.len() as u32, machine.future.len() as u32);
    Session { shape, side, limits, time: machine.time, past, future, kept }
}

fn set_bytes(set: &[Entry]) -> Vec<u8> {
    set.iter().flat_map(Entry::bytes).collect()
}

fn over<T: Copy>(buffer: &mut [T], start: &[T]) {
    buffer[..start.len()].copy_from_slice(start);
}

/// Session and buffers of a machine state; the table and all surplus are those of `given`.
pub fn lay(opened: &Opened, machine: &Machine, given: &Buffers) -> (Session, Buffers) {
    let (shape, mut b) = (&opened.shape, given.clone());
    over(&mut b.backward, &set_bytes(&machine.backward));
    over(&mut b.forward, &set_bytes(&machine.forward));
    let shown = if opened.side == 1 { &machine.backward } else { &machine.forward };
    let set = set_bytes(shown);
    over(&mut b.grid, &grid(shape, machine.time, &set));
    pack(shape, &set, &mut b.xs, &mut b.ys);
    let mut scores = Vec::new();
    for (block, entry) in shown.iter().enumerate() {
        let sum = usize::from(machine.backward[block].luma) + usize::from(machine.forward[block].luma);
        let score = score(entry.sad, b.table[sum]);
        b.averages[block] = b.table[sum];
        b.map[block] = level(&opened.limits, score);
        scores.push(score);
    }
    over(&mut b.history, &slots(machine, depth(given.history.len())));
    (session(opened, machine, counts(&opened.limits, scores)), b)
}

/// The bytes of the D slots: a slot for each step in the machine's own order, and zeros in those that no step takes.
fn slots(machine: &Machine, depth: usize) -> Vec<u8> {
    let mut out: Vec<u8> = machine.past.iter().chain(&machine.future).flat_map(|step| step.bytes()).collect();
    out.resize(SLOT * depth, 0);
    out
}
