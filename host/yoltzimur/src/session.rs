//! The touch-up session with buffers of its own.

use crate::constants::SLOTS_MOST;
use crate::error::Error;
use crate::gesture::Gesture;
use crate::raw::{self, Answer, Owned, State};
use crate::room::zeros;
use crate::types::{BlockVector, Counts, FieldShape, LumaTable, SceneLimits, Side, sizes};

/// A touch-up session: both vector sets, the averages of both, grid, planes, map and class counts of the side that it shows, and the steps to undo and redo.
///
/// The buffers are the session's and nothing but its calls writes them, so that after any list of calls grid, planes, averages, map
/// and counts are those of the vectors. That is proved of the library, whatever the calls and whichever of them are refused.
#[derive(Clone, Debug)]
pub struct Session {
    state: State,
    lent: Owned,
    /// W and H.
    mask_size: (usize, usize),
}

impl Session {
    /// The most steps that a history keeps.
    pub const DEPTH_MOST: usize = SLOTS_MOST;

    /// A session of zero vectors that shows a side at a time, and keeps `depth` steps: at least 1, at most [`DEPTH_MOST`](Session::DEPTH_MOST).
    /// Each put is a step, whatever its gesture.
    ///
    /// Refused by [`Error::Shape`], by [`Error::Buffer`] where `depth` is 0, by [`Error::Range`] where the time is outside
    /// -65,535 to 65,535.
    pub fn open(
        shape: FieldShape,
        side: Side,
        limits: SceneLimits,
        time: i32,
        table: &LumaTable,
        depth: usize,
    ) -> Result<Session, Error> {
        let least = sizes(shape)?;
        let mut lent = Owned {
            backward: zeros(least.backward)?,
            forward: zeros(least.forward)?,
            table: *table,
            grid: zeros(least.grid)?,
            xs: zeros(least.xs)?,
            ys: zeros(least.ys)?,
            averages: zeros(least.averages)?,
            map: zeros(least.map)?,
            history: zeros(least.history * depth.min(Session::DEPTH_MOST))?,
        };
        let answer = raw::open(shape, side.number(), limits, time, &mut lent.lend());
        Error::check(answer.number)?;
        Ok(Session { state: answer.state, lent, mask_size: (least.packed_width, least.packed_height) })
    }

    /// Renews both sets by a payload; no steps are left. Refused by [`Error::ForwardHalf`] with flag bit 0 set, the backward set is
    /// new all the same and no steps are left.
    pub fn take(&mut self, payload: &[u8]) -> Result<(), Error> {
        let answer = raw::take(self.state, payload, &mut self.lent.lend());
        self.keep(answer)
    }

    /// Renews both sets by two payloads, such as those of two motion estimators; no steps are left. On each side that the shape's flags
    /// ask for, every block gets the entry whose sad is the smaller of the two, the first payload's where the sads are equal, and gets it
    /// whole. The other sides stay.
    ///
    /// Refused by [`Error::Head`], [`Error::BackwardHalf`] or [`Error::ForwardHalf`] of the first payload, else of the second. Unlike
    /// [`take`](Session::take) it then writes nothing, whatever the flags: vectors and steps are as they were.
    pub fn pool(&mut self, first: &[u8], second: &[u8]) -> Result<(), Error> {
        let answer = raw::pool(self.state, first, second, &mut self.lent.lend());
        self.keep(answer)
    }

    /// Gives a block's entry on a side: a step of a gesture, whose number [`Gestures`](crate::Gestures) hands out. The oldest step goes,
    /// alone, where there are as many as are kept, and what was undone is lost.
    pub fn put(&mut self, side: Side, block: u32, entry: BlockVector, gesture: Gesture) -> Result<(), Error> {
        let BlockVector { x, y, sad, luma } = entry;
        let (side, gesture) = (side.number(), gesture.number());
        let answer = raw::put(self.state, side, block, x, y, sad, luma, gesture, &mut self.lent.lend());
        self.keep(answer)
    }

    /// Takes the last gesture back: the last step and those right before it with its number, as many as are kept.
    pub fn undo(&mut self) -> Result<(), Error> {
        let answer = raw::undo(self.state, &mut self.lent.lend());
        self.keep(answer)
    }

    /// Makes the next gesture again.
    pub fn redo(&mut self) -> Result<(), Error> {
        let answer = raw::redo(self.state, &mut self.lent.lend());
        self.keep(answer)
    }

    /// Moves to another time.
    pub fn retime(&mut self, time: i32) -> Result<(), Error> {
        let answer = raw::retime(self.state, time, &mut self.lent.lend());
        self.keep(answer)
    }

    /// The session that a call answered, and its number.
    fn keep(&mut self, answer: Answer) -> Result<(), Error> {
        self.state = answer.state;
        Error::check(answer.number)
    }

    /// The cover mask of the shown side at the session's time, [`mask_len`](Session::mask_len) bytes; `cover` is in hundredths.
    pub fn cover_mask(&mut self, cover: i32, sad_scale: f64, mask: &mut [u8]) -> Result<(), Error> {
        let State { shape, side, time, .. } = self.state;
        let b = &mut self.lent;
        // The session's grid is the scratch: the call fills it with the grid of these vectors, which it holds already.
        Error::check(raw::cover_mask(shape, side, &b.backward, &b.forward, cover, sad_scale, time, &mut b.grid, mask))
    }

    /// The SAD mask of the shown side, [`mask_len`](Session::mask_len) bytes.
    pub fn sad_mask(&self, cover: i32, sad_scale: f64, mask: &mut [u8]) -> Result<(), Error> {
        let State { shape, side, .. } = self.state;
        Error::check(raw::sad_mask(shape, side, &self.lent.backward, &self.lent.forward, cover, sad_scale, mask))
    }

    /// The class, 0 to 3, of the shown side, by a walk over its blocks; [`kept_class`](Session::kept_class) is the same without one.
    pub fn quality(&self) -> Result<u32, Error> {
        let State { shape, side, limits, .. } = self.state;
        let class = raw::quality(shape, side, limits, &self.lent.backward, &self.lent.forward, &self.lent.averages);
        Error::check(class.number)?;
        Ok(class.value)
    }

    /// The class, 0 to 3, of the shown side, by the kept counts; no buffer is read.
    pub fn kept_class(&self) -> Result<u32, Error> {
        let class = raw::kept_class(self.state);
        Error::check(class.number)?;
        Ok(class.value)
    }

    pub fn shape(&self) -> FieldShape {
        self.state.shape
    }

    /// The shown side.
    pub fn side(&self) -> Side {
        if self.state.side == Side::Backward.number() { Side::Backward } else { Side::Forward }
    }

    pub fn limits(&self) -> SceneLimits {
        self.state.limits
    }

    pub fn time(&self) -> i32 {
        self.state.time
    }

    /// How many steps can be undone; a gesture is as many of them as it has puts.
    pub fn past(&self) -> u32 {
        self.state.past
    }

    /// How many steps can be redone.
    pub fn future(&self) -> u32 {
        self.state.future
    }

    /// The kept counts, those of the shown side.
    pub fn kept(&self) -> Counts {
        self.state.kept
    }

    /// The bytes of a side's vector set.
    pub fn set(&self, side: Side) -> &[u8] {
        match side {
            Side::Backward => &self.lent.backward,
            Side::Forward => &self.lent.forward,
        }
    }

    /// A block's entry on a side, if the grid has that block.
    pub fn entry(&self, side: Side, block: u32) -> Option<BlockVector> {
        BlockVector::read(self.set(side), usize::try_from(block).ok()?)
    }

    /// The shown side's grid: W + 2 columns, H + 2 rows, and the trash cell.
    pub fn grid(&self) -> &[i32] {
        &self.lent.grid
    }

    /// The shown side's planes, x and y.
    pub fn planes(&self) -> (&[u16], &[u16]) {
        (&self.lent.xs, &self.lent.ys)
    }

    pub fn averages(&self) -> &[u8] {
        &self.lent.averages
    }

    /// The shown side's map.
    pub fn map(&self) -> &[u8] {
        &self.lent.map
    }

    /// The slots of the steps: past ones, oldest first, then future ones, then zeros.
    pub fn history(&self) -> &[u8] {
        &self.lent.history
    }

    /// The bytes of a mask, which has them row by row.
    pub fn mask_len(&self) -> usize {
        self.lent.xs.len()
    }

    /// The columns and the rows of a mask and of a plane: W and H.
    pub fn mask_size(&self) -> (usize, usize) {
        self.mask_size
    }
}
