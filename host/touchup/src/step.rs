//! The steps of a session's history, read from its slots.

use yoltzimur::constants::SLOT_SIZE;
use yoltzimur::{BlockVector, Session, Side};

/// Which block's entry on which side a step changes.
pub struct Step {
    pub block: u32,
    pub side: Side,
    pub old: BlockVector,
    pub new: BlockVector,
}

/// The steps to undo, oldest first, then those to redo, next first.
pub fn steps(session: &Session) -> impl Iterator<Item = Step> + '_ {
    let count = session.past() as usize + session.future() as usize;
    session.history().chunks_exact(SLOT_SIZE).take(count).filter_map(step)
}

/// What a slot holds: block, side, old entry, new entry. The gesture behind them is not needed here.
fn step(slot: &[u8]) -> Option<Step> {
    let word = |at: usize| Some(u32::from_le_bytes(slot.get(at..at + 4)?.try_into().ok()?));
    Some(Step {
        block: word(0)?,
        side: if word(4)? == 1 { Side::Backward } else { Side::Forward },
        old: BlockVector::read(slot, 1)?,
        new: BlockVector::read(slot, 2)?,
    })
}
