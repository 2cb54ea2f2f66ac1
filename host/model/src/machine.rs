//! Paper 01's machine, whose undo and redo take runs (paper 02, 2/14) and which has the call pool (3/14): sets, time and two lists of steps. It
//! knows D, open's shape and what each call is given, and nothing of a session.

use std::collections::VecDeque;

use crate::calls::Put;
use crate::entry::Entry;
use crate::history::Step;
use crate::list::Call;
use crate::shape::Shape;
use crate::update::{BACKWARD, forward_place, payload_number};

#[derive(Clone, PartialEq, Eq, Debug)]
pub struct Machine {
    depth: usize,
    shape: Shape,
    /// B and F, an entry to a block.
    pub backward: Vec<Entry>,
    pub forward: Vec<Entry>,
    pub time: i32,
    /// Oldest first.
    pub past: VecDeque<Step>,
    /// Next redo first.
    pub future: VecDeque<Step>,
}

impl Machine {
    /// After an accepted open: sets zero, lists empty.
    pub fn open(depth: usize, shape: Shape, time: i32) -> Self {
        let zeros = vec![Entry::default(); shape.blocks()];
        let (past, future) = (VecDeque::new(), VecDeque::new());
        Self { depth, shape, backward: zeros.clone(), forward: zeros, time, past, future }
    }

    /// What a call is answered.
    pub fn step(&mut self, call: &Call) -> u32 {
        match call {
            Call::Take(payload) => self.take(payload),
            Call::Pool { first, second } => self.pool(first, second),
            Call::Put(put) => self.put(put),
            Call::Undo => self.undo(),
            Call::Redo => self.redo(),
            Call::Retime(time) => self.retime(*time),
        }
    }

    fn take(&mut self, payload: &[u8]) -> u32 {
        let number = payload_number(&self.shape, payload);
        let (backward, forward) = match number {
            0 => (self.shape.has_backward(), self.shape.has_forward()),
            6 if self.shape.has_backward() => (true, false),
            _ => return number,
        };
        if backward {
            self.backward = self.half(payload, BACKWARD);
        }
        if forward {
            self.forward = self.half(payload, forward_place(&self.shape));
        }
        self.past.clear();
        self.future.clear();
        number
    }

    /// The entries of the half that begins at `at`.
    fn half(&self, payload: &[u8], at: usize) -> Vec<Entry> {
        (0..self.shape.blocks()).map(|block| Entry::at(&payload[at + 4..], block)).collect()
    }

    /// Every refusal leaves the machine as it was. Of equal sads the least is the first.
    fn pool(&mut self, first: &[u8], second: &[u8]) -> u32 {
        let numbers = [first, second].map(|payload| payload_number(&self.shape, payload));
        if let Some(number) = numbers.into_iter().find(|&number| number != 0) {
            return number;
        }
        let pooled = |at: usize| {
            let pairs = self.half(first, at).into_iter().zip(self.half(second, at));
            pairs.filter_map(|(a, b)| [a, b].into_iter().min_by_key(|entry| entry.sad)).collect()
        };
        let backward = self.shape.has_backward().then(|| pooled(BACKWARD));
        let forward = self.shape.has_forward().then(|| pooled(forward_place(&self.shape)));
        if let Some(set) = backward {
            self.backward = set;
        }
        if let Some(set) = forward {
            self.forward = set;
        }
        self.past.clear();
        self.future.clear();
        0
    }

    fn entry(&mut self, side: u32, block: u32) -> &mut Entry {
        let set = if side == 1 { &mut self.backward } else { &mut self.forward };
        &mut set[block as usize]
    }

    fn put(&mut self, put: &Put) -> u32 {
        let Put { side, block, sad, .. } = *put;
        if !(1..=2).contains(&side) || block as usize >= self.backward.len() {
            return 8;
        }
        if !(0..=16_777_215).contains(&sad) {
            return 7;
        }
        let (new, place) = (put.entry(), self.entry(side, block));
        let old = std::mem::replace(place, new);
        if self.past.len() == self.depth {
            self.past.pop_front();
        }
        self.past.push_back(Step { block, side, old, new, gesture: put.gesture });
        self.future.clear();
        0
    }

    /// The last of past gives its old entry to its block and moves to the head of future, as long as the last has the same gesture.
    fn undo(&mut self) -> u32 {
        let Some(gesture) = self.past.back().map(|step| step.gesture) else { return 9 };
        while let Some(&step) = self.past.back().filter(|step| step.gesture == gesture) {
            self.past.pop_back();
            *self.entry(step.side, step.block) = step.old;
            self.future.push_front(step);
        }
        0
    }

    /// The reverse, with the new entry.
    fn redo(&mut self) -> u32 {
        let Some(gesture) = self.future.front().map(|step| step.gesture) else { return 10 };
        while let Some(&step) = self.future.front().filter(|step| step.gesture == gesture) {
            self.future.pop_front();
            *self.entry(step.side, step.block) = step.new;
            self.past.push_back(step);
        }
        0
    }

    fn retime(&mut self, time: i32) -> u32 {
        if !(-65535..=65535).contains(&time) {
            return 7;
        }
        self.time = time;
        0
    }
}
