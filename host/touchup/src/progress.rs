//! A line on standard error that says how far a long script is.

use std::io::{self, IsTerminal, Write};
use std::time::{Duration, Instant};

pub struct Progress {
    shown: Instant,
    /// Standard error is a terminal: the line is written over.
    terminal: bool,
    /// Calls are printed to the same terminal, which shows how far it is.
    idle: bool,
    lines: u32,
}

impl Progress {
    pub fn new(quiet: bool) -> Progress {
        let terminal = io::stderr().is_terminal();
        let idle = terminal && !quiet && io::stdout().is_terminal();
        Progress { shown: Instant::now(), terminal, idle, lines: 0 }
    }

    /// Shows the line where it is time: five times a second on a terminal, else each second.
    pub fn at(&mut self, done: usize, of: usize) {
        let pause = Duration::from_millis(if self.terminal { 200 } else { 1000 });
        if self.idle || self.shown.elapsed() < pause {
            return;
        }
        self.shown = Instant::now();
        self.lines += 1;
        let end = if self.terminal { "\r" } else { "\n" };
        // Nothing hangs on the line: where it cannot be written it is left out.
        write!(io::stderr(), "touchup: {done} of {of} calls{end}").ok();
    }

    /// Wipes the line.
    pub fn end(&self) {
        if self.terminal && self.lines > 0 {
            write!(io::stderr(), "\x1b[K").ok();
        }
    }
}
