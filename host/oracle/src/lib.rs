//! The unchanged Rust of source document 000, and the cases that are recorded from it.

#[cfg(rust_found)]
include!(concat!(env!("OUT_DIR"), "/unchanged.rs"));

pub mod answers; // the file format: cases, parts, digests
pub use ::draw; // numbers drawn from a seed

#[cfg(rust_found)]
pub mod inputs; // shapes, sets and what a case gives to a call
#[cfg(rust_found)]
pub mod kinds; // the cases of each call
#[cfg(rust_found)]
pub mod power; // powf(1.0) beside its argument

/// What a program that needs the Rust says where it was built without it: where it was looked for.
pub fn missing() -> String {
    let source = env!("ORACLE_SOURCE");
    format!(
        "no metadata.rs and smooth.rs in {source}; set ORACLE_SRC to the folder that holds crates/svpflow-core and build again"
    )
}
