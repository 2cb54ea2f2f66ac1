//! Proves and builds the archive with `rt lib`, and links it.
//!
//! `YOLTZIMUR_ARCHIVE` names a folder with a `libunit.a` to link in its place, for a machine without the Rattle kit.

use std::env;
use std::ffi::OsString;
use std::fs;
use std::io::ErrorKind;
use std::path::{Path, PathBuf};
use std::process::{Command, exit};

const ARCHIVE: &str = "libunit.a";
const CHOSEN: &str = "YOLTZIMUR_ARCHIVE";

include!("../chosen.rs");
include!("../version.rs");

fn main() {
    if let Err(problem) = run() {
        eprintln!("yoltzimur: {problem}");
        exit(1);
    }
}

fn run() -> Result<(), String> {
    let target = variable("TARGET")?.to_string_lossy().into_owned();
    if !target.starts_with("x86_64-") || !target.contains("-linux-") {
        return Err(format!("{ARCHIVE} is for x86-64 Linux, and this build is for {target}"));
    }
    let archive = match chosen(CHOSEN)? {
        Some(folder) => archive_of(&folder)?,
        None => built(&repository()?)?,
    };
    of_this_version(&archive)?;
    let out = PathBuf::from(variable("OUT_DIR")?);
    // A copy, so that `rt ci`, which removes the archive, leaves this build whole.
    fs::copy(&archive, out.join(ARCHIVE)).map_err(|problem| format!("{}: {problem}", archive.display()))?;
    println!("cargo::rustc-link-search=native={}", out.display());
    println!("cargo::rustc-link-lib=static=unit");
    Ok(())
}

/// The archive of a folder that was named.
fn archive_of(folder: &Path) -> Result<PathBuf, String> {
    let archive = folder.join(ARCHIVE);
    println!("cargo::rerun-if-changed={}", archive.display());
    if !archive.is_file() {
        return Err(format!("{CHOSEN} is {}, which has no {ARCHIVE}", folder.display()));
    }
    Ok(archive)
}

/// The repository, two folders above this crate: where crates.txt is. Cargo is told of the sources of each crate that the archive is made of.
fn repository() -> Result<PathBuf, String> {
    let root = PathBuf::from(variable("CARGO_MANIFEST_DIR")?).join("../..");
    let root = root.canonicalize().map_err(|problem| format!("{}: {problem}", root.display()))?;
    let list = root.join("crates.txt");
    println!("cargo::rerun-if-changed={}", list.display());
    let text = fs::read_to_string(&list)
        .map_err(|problem| format!("{}: {problem}: this crate stands in host/ of the repository", list.display()))?;
    let line = text.lines().find_map(|line| line.strip_prefix("unit staticlib:"));
    let below = line.ok_or_else(|| format!("{} has no line 'unit staticlib: ..'", list.display()))?;
    for name in below.split_whitespace().chain(["unit"]) {
        for part in ["src", "specs", "proofs"] {
            let path = root.join("crates").join(name).join(part);
            if path.exists() {
                println!("cargo::rerun-if-changed={}", path.display());
            }
        }
    }
    Ok(root)
}

/// The archive, as `rt lib` writes it once every function is proved, with the instructions that every x86-64 has.
fn built(root: &Path) -> Result<PathBuf, String> {
    let folder = root.join("crates/unit");
    let answer = Command::new("rt").args(["lib", "--cpu", "x86-64"]).current_dir(&folder).output();
    let output = match answer {
        Ok(output) => output,
        Err(problem) if problem.kind() == ErrorKind::NotFound => {
            return Err(format!(
                "rt, of the Rattle kit, is not on the PATH; install it, or set {CHOSEN} to the folder of a {ARCHIVE}"
            ));
        }
        Err(problem) => return Err(format!("rt lib, in {}: {problem}", folder.display())),
    };
    if !output.status.success() {
        let told = String::from_utf8_lossy(&output.stdout).into_owned() + &String::from_utf8_lossy(&output.stderr);
        return Err(format!("rt lib, in {}: {}\n{}", folder.display(), output.status, tail(&told)));
    }
    Ok(folder.join("out").join(ARCHIVE))
}

/// The last lines, where `rt` says what failed.
fn tail(text: &str) -> String {
    let lines: Vec<&str> = text.lines().collect();
    lines[lines.len().saturating_sub(20)..].join("\n")
}

fn variable(name: &str) -> Result<OsString, String> {
    env::var_os(name).ok_or_else(|| format!("{name} is not set: this program is run by cargo"))
}
