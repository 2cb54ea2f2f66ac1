//! A list of calls with what it starts from: an open, or a session and buffers as they stand.

use std::fmt::{self, Debug, Formatter};

use model::list::Call;
use model::recorded::Case;
use model::session::{Buffers, Session};

#[derive(Clone)]
pub struct Scenario {
    pub session: Session,
    /// True: open with the shape, side, limits and time of the session first.
    pub opens: bool,
    pub buffers: Buffers,
    pub calls: Vec<Call>,
}

impl Scenario {
    /// A recorded case, as far as it is played.
    pub fn of(case: &Case) -> Self {
        let (mut calls, mut rest) = (Vec::new(), &case.calls[..]);
        while let Some((call, length)) = Call::read(rest).filter(|_| calls.len() < case.room) {
            calls.push(call);
            rest = &rest[length..];
        }
        Self { session: case.session, opens: case.opens, buffers: case.buffers(), calls }
    }
}

/// The start of a buffer, and its length.
fn short<T: Debug>(buffer: &[T]) -> String {
    format!("{} {:?}{}", buffer.len(), &buffer[..buffer.len().min(48)], if buffer.len() > 48 { " .." } else { "" })
}

impl Debug for Scenario {
    fn fmt(&self, out: &mut Formatter) -> fmt::Result {
        let b = &self.buffers;
        writeln!(out, "{} {:?}", if self.opens { "open" } else { "as it stands" }, self.session)?;
        writeln!(out, "backward {}\nforward {}\ntable {}", short(&b.backward), short(&b.forward), short(&b.table))?;
        writeln!(out, "grid {}\nxs {}\nys {}", short(&b.grid), short(&b.xs), short(&b.ys))?;
        writeln!(out, "averages {}\nmap {}\nhistory {}", short(&b.averages), short(&b.map), short(&b.history))?;
        self.calls.iter().try_for_each(|call| writeln!(out, "{call:?}"))
    }
}
