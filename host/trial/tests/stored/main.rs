//! The stored answers of the Rust, held against the library and against the independent model: this
//! needs no Rust.

mod answers;
mod lent;
mod players;

use std::path::Path;
use std::sync::LazyLock;

use chronicle_trial::stored::{bytes, lent, Vector};

/// A file of a crate that replays it.
fn file(path: &str) -> Vec<u8> {
    let path = Path::new(env!("CARGO_MANIFEST_DIR")).join("../../crates").join(path);
    std::fs::read(&path).unwrap_or_else(|error| panic!("{}: {error}", path.display()))
}

/// The stored vectors about lent chronicles.
fn list() -> &'static [Vector] {
    static LIST: LazyLock<Vec<Vector>> =
        LazyLock::new(|| lent(&file("lent_vectors/data/lent.bin")).expect("these are vectors"));
    &LIST
}

#[test]
fn vectors_are_read_as_they_are_written() {
    assert!(bytes(list()) == file("lent_vectors/data/lent.bin"));
}
