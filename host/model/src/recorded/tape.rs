//! A case in the making: each call is played as it is added, so that later calls can depend on the steps there are.

use crate::calls;
use crate::drawn::filled;
use crate::history::past_runs;
use crate::list::Call;
use crate::session::{Buffers, Session};

use super::case::Case;

pub struct Tape {
    case: Case,
    session: Session,
    buffers: Buffers,
    count: usize,
}

impl Tape {
    /// A tape on a session as it stands.
    pub fn forged(session: Session, lengths: [usize; 9], seed: u32) -> Self {
        let case = Case { session, opens: false, lengths, seed, room: 0, calls: Vec::new() };
        Self { case, session, buffers: filled(seed, lengths), count: 0 }
    }

    /// A tape that begins with an open of the session's shape, side, limits and time.
    pub fn opened(session: Session, lengths: [usize; 9], seed: u32) -> Self {
        let mut tape = Self::forged(session, lengths, seed);
        tape.case.opens = true;
        tape.session =
            calls::open(session.shape, session.side, session.limits, session.time, &mut tape.buffers).session;
        tape
    }

    /// Adds a call and says its number.
    pub fn push(&mut self, call: &Call) -> u32 {
        call.write(&mut self.case.calls);
        let answer = call.run(self.session, &mut self.buffers);
        self.session = answer.session;
        self.count += 1;
        answer.number
    }

    pub fn extend(&mut self, calls: &[Call]) {
        for call in calls {
            self.push(call);
        }
    }

    /// Undoes every run of past, then does as many again.
    pub fn back_and_forth(&mut self) {
        let runs = past_runs(&self.buffers.history, self.session.past as usize);
        for call in [Call::Undo, Call::Redo] {
            for _ in 0..runs {
                self.push(&call);
            }
        }
    }

    /// The case, with room for `more` answers than it has calls.
    pub fn finish(self, more: usize) -> Case {
        Case { room: self.count + more, ..self.case }
    }
}
