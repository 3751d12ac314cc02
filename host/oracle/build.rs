//! Turns the comparison on where the Rust was found.

use std::env;

fn main() {
    println!("cargo::rustc-check-cfg=cfg(found)");
    println!("cargo::rerun-if-changed=build.rs");
    if env::var_os("DEP_EU4SAVE_FOUND").is_some() {
        println!("cargo::rustc-cfg=found");
    }
}
