//! Times the archive beside the unchanged Rust on the same inputs and prints docs/SPEED.md up to its part by hand, or beside another archive:
//! `bench [--quick] [--beside FOLDER]`.

#[cfg(ready)]
mod beside; // another archive
#[cfg(ready)]
mod bounds; // what bounds each call
#[cfg(ready)]
mod clock; // samples of several sides in turn
#[cfg(ready)]
mod fields; // the fields that are timed
#[cfg(ready)]
mod pool; // pool beside take
#[cfg(ready)]
mod runs; // undo and redo of runs
#[cfg(ready)]
mod rust; // the unchanged Rust's two builds
#[cfg(ready)]
mod session; // the session beside rebuilding all, the kept class beside quality
#[cfg(ready)]
#[path = "../table.rs"]
mod table;
#[cfg(ready)]
mod tables; // the calls over two sets

use std::ffi::OsString;
use std::path::{Path, PathBuf};
use std::process::ExitCode;

const USAGE: &str = "\
bench [--quick] [--beside FOLDER] prints the measured part of docs/SPEED.md, from fewer samples if quick

--beside FOLDER  time cover_mask of the archive in that folder, a libunit.a of the same major and minor, beside this one's, and print that alone";

/// How it is timed: from fewer samples, and beside which other archive if any.
#[derive(Default)]
struct Words {
    quick: bool,
    beside: Option<PathBuf>,
}

impl Words {
    /// Nothing where help is asked for.
    fn read(mut words: impl Iterator<Item = OsString>) -> Result<Option<Self>, String> {
        let mut read = Self::default();
        while let Some(word) = words.next() {
            match word.to_str() {
                Some("--quick") => read.quick = true,
                Some("--beside") => read.beside = Some(words.next().ok_or("--beside wants a folder")?.into()),
                Some("--help" | "-h") => return Ok(None),
                _ => return Err(format!("unknown word {}", word.display())),
            }
        }
        Ok(Some(read))
    }
}

fn main() -> ExitCode {
    let words = match Words::read(std::env::args_os().skip(1)) {
        Ok(Some(words)) => words,
        Ok(None) => {
            println!("{USAGE}");
            return ExitCode::SUCCESS;
        }
        Err(problem) => {
            eprintln!("bench: {problem}\n{USAGE}");
            return ExitCode::from(2);
        }
    };
    match run(words.quick, words.beside.as_deref()) {
        Ok(()) => ExitCode::SUCCESS,
        Err(problem) => {
            eprintln!("bench: {problem}");
            ExitCode::from(1)
        }
    }
}

#[cfg(not(ready))]
fn run(_: bool, _: Option<&Path>) -> Result<(), String> {
    Err(boundary::missing().unwrap_or_else(oracle::missing))
}

/// Prints all parts, or the table beside another archive; where the two sides differ, nothing.
#[cfg(ready)]
fn run(quick: bool, beside: Option<&Path>) -> Result<(), String> {
    clock::set_quick(quick);
    if let Some(folder) = beside {
        print!("{}", beside::table(folder)?);
        return Ok(());
    }
    let head = fields::head();
    let (still, moving) = (tables::still()?, tables::moving()?);
    let parts = [&head, &still, &moving, &session::tables()?, &session::kept_class()?, &pool::table()?, bounds::BOUNDS];
    parts.iter().for_each(|part| println!("{part}"));
    Ok(())
}
