//! Builds the unchanged Rust twice, at -O for baseline x86-64 and again with this machine's own instructions, so that one run times both.

use std::env::{var, var_os};
use std::path::Path;
use std::process::{Command, exit};

/// The library's name, and what its build adds.
const BUILDS: [(&str, &[&str]); 2] =
    [("svpflow_base", &[]), ("svpflow_native", &["-C", "target-cpu=native", "--cfg", "native"])];

fn main() {
    println!("cargo::rustc-check-cfg=cfg(ready)");
    println!("cargo::rerun-if-changed=svpflow.rs");
    println!("cargo::rerun-if-changed=table.rs");
    if let Err(problem) = run() {
        eprintln!("{problem}");
        exit(1);
    }
}

fn run() -> Result<(), String> {
    let (Ok(unchanged), Some(_)) = (var("DEP_SVPFLOW_UNCHANGED"), var_os("DEP_UNIT_FOUND")) else { return Ok(()) };
    let out = var("OUT_DIR").map_err(|problem| format!("OUT_DIR: {problem}"))?;
    for (name, words) in BUILDS {
        build(name, words, &unchanged, &out)?;
        println!("cargo::rustc-link-lib=dylib={name}");
    }
    println!("cargo::rustc-env=RUSTC_VERSION={}", version()?);
    println!("cargo::rerun-if-changed={unchanged}");
    println!("cargo::rustc-link-search=native={out}");
    println!("cargo::rustc-link-arg=-Wl,-rpath,{out}");
    println!("cargo::rustc-cfg=ready");
    Ok(())
}

fn version() -> Result<String, String> {
    let rustc = var("RUSTC").map_err(|problem| format!("RUSTC: {problem}"))?;
    let out = Command::new(&rustc).arg("--version").output().map_err(|problem| format!("{rustc}: {problem}"))?;
    Ok(String::from_utf8_lossy(&out.stdout).trim().to_string())
}

fn build(name: &str, words: &[&str], unchanged: &str, out: &str) -> Result<(), String> {
    let rustc = var("RUSTC").map_err(|problem| format!("RUSTC: {problem}"))?;
    let library = Path::new(out).join(format!("lib{name}.so"));
    let status = Command::new(&rustc)
        .args(["--edition", "2024", "--crate-type", "cdylib", "-O", "--check-cfg", "cfg(native)", "svpflow.rs"])
        .args(["--crate-name", name, "-o"])
        .arg(&library)
        .args(words)
        .env("UNCHANGED", unchanged)
        .status()
        .map_err(|problem| format!("{rustc}: {problem}"))?;
    if status.success() { Ok(()) } else { Err(format!("{rustc} could not build {}", library.display())) }
}
