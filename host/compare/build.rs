//! Says whether the unchanged Rust and the archive were found by the crates that look for them.

use std::env::var_os;

fn main() {
    println!("cargo::rustc-check-cfg=cfg(ready)");
    if var_os("DEP_SVPFLOW_FOUND").is_some() && var_os("DEP_UNIT_FOUND").is_some() {
        println!("cargo::rustc-cfg=ready");
    }
}
