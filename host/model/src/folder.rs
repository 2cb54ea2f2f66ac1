//! A tool that writes into a folder: its one word (none for its own folder, a folder, or a call for help), its files, and how it ends.

use std::env;
use std::ffi::OsString;
use std::fs;
use std::io;
use std::path::{Path, PathBuf};
use std::process::ExitCode;

/// The folder that the command line names, or `own` where it names none; else how the tool ends, with `usage` printed.
pub fn named(tool: &str, usage: &str, own: &str) -> Result<PathBuf, ExitCode> {
    let words: Vec<OsString> = env::args_os().skip(1).collect();
    match &words[..] {
        [] => Ok(PathBuf::from(own)),
        [word] if word == "--help" || word == "-h" => {
            println!("{usage}");
            Err(ExitCode::SUCCESS)
        }
        [word] if !word.to_string_lossy().starts_with('-') && !word.is_empty() => Ok(PathBuf::from(word)),
        _ => {
            eprintln!("{tool}: bad words {words:?}\n{usage}");
            Err(ExitCode::from(2))
        }
    }
}

/// A file to be written: its path in the folder, and its bytes.
pub struct File {
    pub name: String,
    pub bytes: Vec<u8>,
}

/// Writes every file beside its place, then moves each there: none stands half written, and where one can't be written none is moved.
/// A folder in a file's place, to which nothing could be moved, is refused first.
pub fn write(folder: &Path, files: &[File]) -> Result<(), String> {
    let places: Vec<PathBuf> = files.iter().map(|file| folder.join(&file.name)).collect();
    if let Some(place) = places.iter().find(|place| place.is_dir()) {
        return Err(format!("{}: is a folder, and a file is expected", place.display()));
    }
    for (index, (place, file)) in places.iter().zip(files).enumerate() {
        write_beside(place, &file.bytes).inspect_err(|_| remove_parts(&places[..=index]))?;
    }
    for (index, place) in places.iter().enumerate() {
        fs::rename(part(place), place).map_err(told(place)).inspect_err(|_| remove_parts(&places[index..]))?;
    }
    Ok(())
}

/// Where a file is written before it is moved to its place.
fn part(place: &Path) -> PathBuf {
    place.with_added_extension("part")
}

fn write_beside(place: &Path, bytes: &[u8]) -> Result<(), String> {
    if let Some(folder) = place.parent() {
        fs::create_dir_all(folder).map_err(told(folder))?;
    }
    let part = part(place);
    fs::write(&part, bytes).map_err(told(&part))
}

/// Removes what was written beside these places, as far as it is there.
fn remove_parts(places: &[PathBuf]) {
    for place in places {
        let _ = fs::remove_file(part(place));
    }
}

fn told(path: &Path) -> impl Fn(io::Error) -> String {
    let path = path.display().to_string();
    move |problem| format!("{path}: {problem}")
}

/// How a tool ends that did its work, or could not.
pub fn ended(tool: &str, done: Result<(), String>) -> ExitCode {
    match done {
        Ok(()) => ExitCode::SUCCESS,
        Err(problem) => {
            eprintln!("{tool}: {problem}");
            ExitCode::from(1)
        }
    }
}
