//! Finds the archive `libunit.a` that `rt lib` writes, under `YOLTZIMUR_ARCHIVE` or in the repository's `crates/unit/out`, and links it.
//!
//! Where it is not found the crate is built without it, and its users say so.

use std::env;
use std::path::{Path, PathBuf};
use std::process::exit;

include!("../chosen.rs");
include!("../version.rs");

fn main() {
    println!("cargo::rustc-check-cfg=cfg(unit_found)");
    if let Err(problem) = run() {
        eprintln!("{problem}");
        exit(1);
    }
}

fn run() -> Result<(), String> {
    let folder = folder()?;
    let archive = folder.join("libunit.a");
    println!("cargo::rustc-env=UNIT_ARCHIVE={}", archive.display());
    println!("cargo::rerun-if-changed={}", archive.display());
    if !archive.is_file() {
        return Ok(());
    }
    of_this_version(&archive)?;
    println!("cargo::rustc-link-search=native={}", folder.display());
    println!("cargo::rustc-link-lib=static=unit");
    println!("cargo::rustc-cfg=unit_found");
    println!("cargo::metadata=FOUND=1");
    Ok(())
}

/// The folder of the archive.
fn folder() -> Result<PathBuf, String> {
    if let Some(folder) = chosen("YOLTZIMUR_ARCHIVE")? {
        return Ok(folder);
    }
    let here = env::var("CARGO_MANIFEST_DIR").map_err(|problem| format!("CARGO_MANIFEST_DIR: {problem}"))?;
    Ok(Path::new(&here).join("../../crates/unit/out"))
}
