//! The undo list in bytes, and the runs in it: slots of 28 (paper 01, 'Session'; paper 02, 2/14).

use crate::bytes::u32_at;
use crate::entry::Entry;

/// The bytes of a slot: where the step is (a block and a side, four bytes each), the entry before, the one after, and its gesture.
pub const SLOT: usize = 28;

/// Where in a slot its gesture stands, which is last.
pub const GESTURE: usize = SLOT - 4;

/// The most slots that are used.
pub const DEEPEST: usize = 4096;

/// D, of a history of so many bytes.
pub const fn depth(bytes: usize) -> usize {
    let slots = bytes / SLOT;
    if slots < DEEPEST { slots } else { DEEPEST }
}

#[derive(Clone, Copy, PartialEq, Eq, Debug)]
pub struct Step {
    pub block: u32,
    pub side: u32,
    pub old: Entry,
    pub new: Entry,
    /// The number that the put carried.
    pub gesture: u32,
}

impl Step {
    pub fn bytes(&self) -> [u8; SLOT] {
        let mut out = [0; SLOT];
        out[..4].copy_from_slice(&self.block.to_le_bytes());
        out[4..8].copy_from_slice(&self.side.to_le_bytes());
        out[8..16].copy_from_slice(&self.old.bytes());
        out[16..GESTURE].copy_from_slice(&self.new.bytes());
        out[GESTURE..].copy_from_slice(&self.gesture.to_le_bytes());
        out
    }

    /// What stands in a slot, or none where the history ends before it does.
    pub fn at(history: &[u8], slot: usize) -> Option<Self> {
        let bytes = history.get(SLOT * slot..SLOT * (slot + 1))?;
        Some(Self {
            block: u32_at(bytes, 0)?,
            side: u32_at(bytes, 4)?,
            old: Entry::at(&bytes[8..], 0),
            new: Entry::at(&bytes[16..], 0),
            gesture: u32_at(bytes, GESTURE)?,
        })
    }
}

/// The steps in some slots, up to the first slot that the history has not.
fn steps(history: &[u8], slots: impl Iterator<Item = usize>) -> impl Iterator<Item = Step> {
    slots.map_while(|slot| Step::at(history, slot))
}

/// Those before the first that has another gesture than the first of all.
fn run(steps: impl Iterator<Item = Step>) -> Vec<Step> {
    let mut steps = steps.peekable();
    let gesture = steps.peek().map(|step| step.gesture);
    steps.take_while(|step| Some(step.gesture) == gesture).collect()
}

/// Past's run, latest step first: from slot past - 1 down.
pub fn past_run(history: &[u8], past: usize) -> Vec<Step> {
    run(steps(history, (0..past).rev()))
}

/// Future's run, next redo first: from slot past up.
pub fn future_run(history: &[u8], past: usize, future: usize) -> Vec<Step> {
    run(steps(history, past..past + future))
}

/// How many runs the past steps are.
pub fn past_runs(history: &[u8], past: usize) -> usize {
    let gestures: Vec<u32> = steps(history, 0..past).map(|step| step.gesture).collect();
    gestures.chunk_by(|a, b| a == b).count()
}

/// Puts a step behind `past` others, of which the oldest goes first, alone, where there are D already, and zeroes every slot past it. The new count.
pub fn append(history: &mut [u8], past: usize, step: &Step) -> usize {
    let depth = depth(history.len());
    let slots = &mut history[..SLOT * depth];
    let mut place = past;
    if past == depth {
        slots.copy_within(SLOT.., 0);
        place = depth - 1;
    }
    slots[SLOT * place..SLOT * (place + 1)].copy_from_slice(&step.bytes());
    slots[SLOT * (place + 1)..].fill(0);
    place + 1
}

/// Zeroes the D slots.
pub fn clear(history: &mut [u8]) {
    let used = SLOT * depth(history.len());
    history[..used].fill(0);
}
