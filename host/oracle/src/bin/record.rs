//! Records the unchanged Rust's answers: `record [FOLDER]`, by default the data folder of the program `replay`.

use std::path::Path;
use std::process::ExitCode;

use model::folder;

const FOLDER: &str = concat!(env!("CARGO_MANIFEST_DIR"), "/../../crates/replay/data");
const USAGE: &str = "record [FOLDER] records the unchanged Rust's answers there, by default in crates/replay/data";

fn main() -> ExitCode {
    match folder::named("record", USAGE, FOLDER) {
        Ok(folder) => folder::ended("record", record(&folder)),
        Err(end) => end,
    }
}

#[cfg(not(rust_found))]
fn record(_folder: &Path) -> Result<(), String> {
    Err(oracle::missing())
}

/// Writes once every call is recorded, so that a recording that stops leaves the files of the last one.
#[cfg(rust_found)]
fn record(folder: &Path) -> Result<(), String> {
    use model::folder::File;
    use oracle::{answers, kinds::KINDS, power};

    let (mut files, mut lines) = (Vec::new(), String::new());
    for kind in KINDS {
        let name = kind.name;
        let recorded = std::panic::catch_unwind(|| kind.recorded())
            .map_err(|_| format!("{name}: the Rust stopped within its domain"))?;
        for (ending, cases) in recorded {
            let bytes = answers::file(&cases);
            lines += &format!("{name:12} {ending} {:5} cases {:7} bytes\n", cases.len(), bytes.len());
            files.push(File { name: format!("{name}.{ending}"), bytes });
        }
    }
    folder::write(folder, &files)?;
    print!("{lines}");
    let tried = power::tried(10_000_000);
    println!("powf(1.0): {} values, {} with other bits", tried.values, tried.other);
    Ok(())
}
