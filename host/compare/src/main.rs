//! Feeds the archive, the unchanged Rust and the model the same inputs and compares every result: `compare --help` says how.

mod options;

#[cfg(ready)]
mod boundaries; // inputs at the limits of paper 01
#[cfg(ready)]
mod field; // what the calls over two sets are given
#[cfg(ready)]
mod guarded; // buffers with marked elements around them
#[cfg(ready)]
mod kinds; // each call without a session
#[cfg(ready)]
mod lent; // the buffers of such a call
#[cfg(ready)]
mod overrun; // calls that are lent less than they are told
#[cfg(ready)]
mod plant; // differences put into the archive's answers
#[cfg(ready)]
mod rust; // the unchanged Rust on the same buffers
#[cfg(ready)]
mod session; // the session's calls, list by list
#[cfg(ready)]
mod smaller; // simpler inputs than one that differs
#[cfg(ready)]
mod tally; // how often each call was compared
#[cfg(ready)]
mod tried; // the loop over inputs, and the smallest that differs

use std::process::ExitCode;

use options::Options;

fn main() -> ExitCode {
    let options = match Options::read(std::env::args_os().skip(1)) {
        Ok(options) => options,
        Err(problem) => {
            eprintln!("compare: {problem}\n{}", options::HELP);
            return ExitCode::from(2);
        }
    };
    if options.help {
        println!("{}", options::HELP);
        return ExitCode::SUCCESS;
    }
    match compare(&options) {
        Ok(()) => ExitCode::SUCCESS,
        Err(problem) => {
            eprintln!("compare: {problem}");
            ExitCode::from(1)
        }
    }
}

#[cfg(not(ready))]
fn compare(_: &Options) -> Result<(), String> {
    Err(boundary::missing().unwrap_or_else(oracle::missing))
}

#[cfg(ready)]
fn compare(options: &Options) -> Result<(), String> {
    if let Some(what) = options.overrun {
        return overrun::run(what);
    }
    if options.exact {
        guarded::exact();
    }
    rust::quiet();
    if options.plant { planted(options) } else { compared(options) }
}

#[cfg(ready)]
fn compared(options: &Options) -> Result<(), String> {
    let start = std::time::Instant::now();
    let mut tally = tally::Tally::default();
    kinds::compared(options, &mut tally)?;
    if !options.without_session {
        session::compared(options, &mut tally)?;
    }
    if !options.small {
        let tried = oracle::power::tried(10_000_000);
        println!("powf(1.0): {} values, {} with other bits", tried.values, tried.other);
    }
    println!("{tally}");
    if tally.total() == 0 {
        return Err(String::from("nothing was compared"));
    }
    println!("no difference, {} s", start.elapsed().as_secs());
    Ok(())
}

/// Puts a difference into each part of each answer; every one must be found.
#[cfg(ready)]
fn planted(options: &Options) -> Result<(), String> {
    let mut found = plant::Found::default();
    kinds::planted(options, &mut found);
    if !options.without_session {
        session::planted(options, &mut found);
    }
    println!("{found}");
    found.verdict()
}
