//! Writes what the program `playback` reads and what it must print: `lists [FOLDER]`, by default its crate's folder.

use std::path::Path;
use std::process::ExitCode;

use model::folder::{self, File};
use model::recorded::{cases, file, printed};

const FOLDER: &str = concat!(env!("CARGO_MANIFEST_DIR"), "/../../crates/playback");
const USAGE: &str = "lists [FOLDER] writes data/lists.bin and stdout there, by default in crates/playback";

fn main() -> ExitCode {
    match folder::named("lists", USAGE, FOLDER) {
        Ok(folder) => folder::ended("lists", write_all(&folder)),
        Err(end) => end,
    }
}

fn write_all(folder: &Path) -> Result<(), String> {
    let cases = cases();
    for (index, case) in cases.iter().enumerate() {
        case.within_limits().map_err(|problem| format!("case {}: {problem}", index + 1))?;
    }
    let (bytes, (text, tally)) = (file(&cases), printed(&cases));
    let told = format!("{} bytes, {} cases, {tally}", bytes.len(), cases.len());
    let lists = File { name: String::from("data/lists.bin"), bytes };
    folder::write(folder, &[lists, File { name: String::from("stdout"), bytes: text.into_bytes() }])?;
    println!("{told}");
    Ok(())
}
