//! The calls of the archive `libunit.a` for the model's types, as `exports` declares them: exact bytes and lengths, nothing checked.

/// Where the archive was looked for when this crate was built.
pub const ARCHIVE: &str = env!("UNIT_ARCHIVE");

/// The archive was there.
const FOUND: bool = cfg!(unit_found);

/// What a program that needs the archive says where it was built without it.
pub fn missing() -> Option<String> {
    let told = || {
        format!(
            "no archive at {ARCHIVE}; run 'rt lib --cpu x86-64' in crates/unit, or set YOLTZIMUR_ARCHIVE to the folder that holds libunit.a, and build again"
        )
    };
    (!FOUND).then(told)
}

#[cfg(unit_found)]
pub mod field; // record, shape, sizes; update, maps, masks
#[cfg(unit_found)]
pub mod session; // open, take, pool, put, undo, redo, retime, kept class
