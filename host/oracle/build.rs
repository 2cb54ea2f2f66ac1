//! Copies the unchanged Rust into the build's folder and names its two modules.
//!
//! `smooth.rs` keeps the sets of a `VectorField` to itself, so a view of them is appended to its copy.
//! Where the Rust is not found the crate is built without it, and `record` says so; where it is another, nothing is built.

use std::env;
use std::fs;
use std::path::{Path, PathBuf};
use std::process::exit;

include!("../chosen.rs");

/// The files of source document 000, each with the digest of its bytes.
const FILES: [(&str, u64); 2] = [("metadata.rs", 0x9AD2_B04C_BDBF_05A0), ("smooth.rs", 0xBD90_1B7F_88BE_38E0)];
const VIEW: &str = include_str!("view.rs");

fn main() {
    println!("cargo::rerun-if-changed=view.rs");
    println!("cargo::rustc-check-cfg=cfg(rust_found)");
    if let Err(problem) = run() {
        eprintln!("{problem}");
        exit(1);
    }
}

fn run() -> Result<(), String> {
    let source = source_folder()?;
    println!("cargo::rustc-env=ORACLE_SOURCE={}", source.display());
    for (name, _) in FILES {
        println!("cargo::rerun-if-changed={}", source.join(name).display());
    }
    if FILES.iter().all(|(name, _)| source.join(name).is_file()) {
        let out = PathBuf::from(variable("OUT_DIR")?);
        copy_modules(&source, &out)?;
        println!("cargo::rustc-cfg=rust_found");
        println!("cargo::metadata=FOUND=1");
        println!("cargo::metadata=UNCHANGED={}", out.join("unchanged.rs").display());
    }
    Ok(())
}

/// The folder of the two files, under `ORACLE_SRC` or beside the repository.
fn source_folder() -> Result<PathBuf, String> {
    let root = match chosen("ORACLE_SRC")? {
        Some(root) => root,
        None => Path::new(&variable("CARGO_MANIFEST_DIR")?).join("../../../shared/docs/src"),
    };
    Ok(root.join("crates/svpflow-core/src"))
}

fn variable(name: &str) -> Result<String, String> {
    env::var(name).map_err(|problem| format!("{name}: {problem}"))
}

fn copy_modules(source: &Path, out: &Path) -> Result<(), String> {
    let mut modules = String::new();
    for (file, digest) in FILES {
        let mut text = unchanged(&source.join(file), digest)?;
        let name = file.trim_end_matches(".rs");
        if name == "smooth" {
            text.push('\n');
            text.push_str(VIEW);
        }
        let to = out.join(file);
        write(&to, &text)?;
        modules.push_str(&format!("#[allow(dead_code)]\n#[path = {to:?}]\npub mod {name};\n"));
    }
    write(&out.join("unchanged.rs"), &modules)
}

/// The text of a file that has this digest.
fn unchanged(path: &Path, expected: u64) -> Result<String, String> {
    let text = fs::read_to_string(path).map_err(|problem| format!("{}: {problem}", path.display()))?;
    let found = digest(text.as_bytes());
    if found != expected {
        let path = path.display();
        return Err(format!("{path} is not the Rust that was ported: its digest is {found:016x}, not {expected:016x}"));
    }
    Ok(text)
}

/// FNV-1a, 64 bits.
fn digest(bytes: &[u8]) -> u64 {
    bytes.iter().fold(0xCBF2_9CE4_8422_2325, |hash, &byte| (hash ^ u64::from(byte)).wrapping_mul(0x0100_0000_01B3))
}

fn write(path: &Path, text: &str) -> Result<(), String> {
    fs::write(path, text).map_err(|problem| format!("{}: {problem}", path.display()))
}
