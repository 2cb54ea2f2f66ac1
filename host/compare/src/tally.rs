//! How often each call was compared, with what, and what it answered.

use std::fmt::{self, Display, Formatter};

use crate::options::CALLS;

#[derive(Default, Clone, Copy)]
struct Row {
    cases: u64,
    rust: u64,
    numbers: [u64; 13],
}

/// The rows behind those of the calls that know no session, in order.
const SESSION_ROWS: [&str; 7] = ["open", "take", "put", "undo", "redo", "retime", LISTS];

/// The row of lists after which the Rust rebuilt all.
pub const LISTS: &str = "lists";

#[derive(Default)]
pub struct Tally(Vec<(&'static str, Row)>);

impl Tally {
    fn row(&mut self, call: &'static str) -> &mut Row {
        let at = self.0.iter().position(|(name, _)| *name == call).unwrap_or_else(|| {
            self.0.push((call, Row::default()));
            self.0.len() - 1
        });
        &mut self.0[at].1
    }

    /// One case, compared with the model, and where `rust` is true with the Rust too.
    pub fn add(&mut self, call: &'static str, number: u32, rust: bool) {
        let row = self.row(call);
        row.cases += 1;
        row.rust += u64::from(rust);
        row.numbers[number.min(12) as usize] += 1;
    }

    /// All calls that were compared; lists whose end was held beside the Rust's rebuilding are no calls.
    pub fn total(&self) -> u64 {
        self.0.iter().filter(|(call, _)| *call != LISTS).map(|(_, row)| row.cases).sum()
    }
}

impl Display for Tally {
    fn fmt(&self, out: &mut Formatter) -> fmt::Result {
        writeln!(out, "{:12} {:>10} {:>10} {:>10}  answers by number", "call", "cases", "the model", "the Rust")?;
        let mut rows = self.0.clone();
        rows.sort_by_key(|(call, _)| CALLS.iter().chain(&SESSION_ROWS).position(|name| name == call));
        for (call, row) in rows {
            write!(out, "{call:12} {:10} {:10} {:10} ", row.cases, row.cases, row.rust)?;
            for (number, times) in row.numbers.iter().enumerate().filter(|(_, times)| **times > 0) {
                write!(out, " {number}:{times}")?;
            }
            writeln!(out)?;
        }
        write!(out, "{:12} {:10}", "all", self.total())
    }
}
