//! Finds the Rust that the chronicle is compared with, makes sure that it is that Rust and no
//! other, and writes the module list that builds it where it lies.
//!
//! CHRONICLE_RUST_SRC names the folder; without it, the file `rust_sources` does. A missing folder
//! leaves this package empty, with a warning; with CI=true it ends the build. So does a file that
//! is missing there, or not the one that SHA256SUMS names.

mod sha256;

use std::env;
use std::fs;
use std::path::{Path, PathBuf};
use std::process::exit;

/// As `sha256sum` writes it: run `sha256sum -c` on it in the folder to check by hand.
const SUMS: &str = include_str!("../SHA256SUMS");

/// Names the folder on the one line that is no comment.
const RUST_SOURCES: &str = include_str!("../../rust_sources");

fn main() {
    println!("cargo::rerun-if-env-changed=CHRONICLE_RUST_SRC");
    println!("cargo::rerun-if-env-changed=CI");
    println!("cargo::rerun-if-changed=build");
    println!("cargo::rerun-if-changed=SHA256SUMS");
    println!("cargo::rerun-if-changed=../rust_sources");
    println!("cargo::rustc-check-cfg=cfg(found)");
    let folder = folder();
    println!("cargo::rerun-if-changed={}", folder.display());
    if !folder.is_dir() {
        missing(&folder);
        return;
    }
    let modules: String = SUMS.lines().map(|line| module(&folder, line)).collect();
    fs::write(out_file(), modules).expect("cargo's folder can be written");
    println!("cargo::rustc-cfg=found");
    println!("cargo::metadata=found=1");
}

/// Says that there is no Rust to compare with; ends the build where nothing may be left out.
fn missing(folder: &Path) {
    if env::var_os("CI").is_some_and(|ci| ci == "true") {
        stop(folder, "it is missing, and with CI=true the Rust must be there");
    }
    println!(
        "cargo::warning={} is missing: NOTHING will be compared with the Rust; \
         set CHRONICLE_RUST_SRC to the folder that holds crates/eu4save/src",
        folder.display()
    );
}

/// Either path is taken from the top of the repository, unless it is whole.
fn folder() -> PathBuf {
    let named = || {
        let mut lines = RUST_SOURCES.lines().filter(|line| !line.starts_with('#'));
        lines.next().expect("a line names the folder").into()
    };
    let top = variable("CARGO_MANIFEST_DIR").join("../../..");
    top.join(env::var_os("CHRONICLE_RUST_SRC").unwrap_or_else(named))
}

fn out_file() -> PathBuf {
    variable("OUT_DIR").join("modules.rs")
}

fn variable(name: &str) -> PathBuf {
    PathBuf::from(env::var_os(name).expect("cargo sets this"))
}

/// The declaration of one file as a module, once its content is known to be the expected one.
fn module(folder: &Path, line: &str) -> String {
    let (sum, name) = line.split_once("  ").expect("a line is a sum and a name");
    let path = folder.join(name);
    println!("cargo::rerun-if-changed={}", path.display());
    let content = fs::read(&path).unwrap_or_else(|error| stop(&path, &error.to_string()));
    let found = sha256::hex(&content);
    if found != sum {
        let reason = format!("its SHA-256 is {found} and not {sum}: it is not the Rust followed");
        stop(&path, &reason);
    }
    let path = fs::canonicalize(&path).expect("the file was just read");
    let stem = path.file_stem().and_then(|stem| stem.to_str()).expect("the names are plain");
    format!("#[path = {path:?}]\npub mod {stem};\n")
}

fn stop(path: &Path, reason: &str) -> ! {
    eprintln!("{}: {reason}", path.display());
    exit(1)
}
