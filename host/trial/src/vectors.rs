//! The stored list of records and numbers that the proved program replays in its own tests.
//!
//! One file, entries back to back: the record's length (32 bits, low byte first), the expected
//! number (1 byte), the record. The numbers are the independent checker's.

use std::fmt::Write;
use std::process::ExitCode;

use crate::cases::Cases;
use crate::edges;
use crate::reference::refusal_number;

const SEED: u64 = 41;
const SEEDED: usize = 1_500;

/// One entry of the list.
#[derive(Clone, Debug)]
#[allow(missing_docs)]
pub struct Vector {
    pub name: String,
    pub number: u8,
    pub record: Vec<u8>,
}

/// The whole list, the same every time: the edges, then seeded damage.
///
/// # Panics
///
/// If the independent checker disagrees with a number written by hand.
///
/// ```
/// use chronicle_trial::vectors;
///
/// assert!(vectors::all().iter().all(|vector| vector.record.len() <= 60_000));
/// ```
pub fn all() -> Vec<Vector> {
    let mut vectors: Vec<Vector> = edges::all().into_iter().map(by_hand).collect();
    let mut cases = Cases::new(SEED);
    for _ in 0..SEEDED {
        let case = cases.draw();
        vectors.push(Vector {
            name: case.to_string(),
            number: refusal_number(&case.record),
            record: case.record.clone(),
        });
    }
    vectors
}

fn by_hand(edge: edges::Edge) -> Vector {
    let number = refusal_number(&edge.record);
    assert_eq!(number, edge.number, "{}", edge.name);
    Vector { name: edge.name, number, record: edge.record }
}

/// The list as it is stored.
///
/// ```
/// use chronicle_trial::vectors::{encode, Vector};
///
/// let vector = Vector { name: "short".into(), number: 1, record: b"AT".to_vec() };
/// assert_eq!(encode(&[vector]), b"\x02\0\0\0\x01AT");
/// ```
pub fn encode(vectors: &[Vector]) -> Vec<u8> {
    let mut out = Vec::new();
    for vector in vectors {
        let length = u32::try_from(vector.record.len()).expect("a record is short");
        out.extend_from_slice(&length.to_le_bytes());
        out.push(vector.number);
        out.extend_from_slice(&vector.record);
    }
    out
}

/// The list for people: a line of place, number and name for each entry.
///
/// ```
/// use chronicle_trial::vectors::{listing, Vector};
///
/// let vector = Vector { name: "short".into(), number: 1, record: b"AT".to_vec() };
/// assert_eq!(listing(&[vector]), "0 1 short\n");
/// ```
pub fn listing(vectors: &[Vector]) -> String {
    let mut out = String::new();
    for (place, vector) in vectors.iter().enumerate() {
        writeln!(out, "{place} {} {}", vector.number, vector.name).expect("a string grows");
    }
    out
}

/// What a program that keeps a stored list does with its arguments: `NAME FILE` writes the list,
/// `NAME --check FILE` holds the stored one against it. Either says what it did, or why not.
pub fn run(
    name: &str,
    write: fn(&str) -> Result<String, String>,
    check: fn(&str) -> Result<String, String>,
) -> ExitCode {
    let arguments: Vec<String> = std::env::args().skip(1).collect();
    let outcome = match arguments.iter().map(String::as_str).collect::<Vec<_>>()[..] {
        ["--check", file] => check(file),
        [file] if !file.starts_with('-') => write(file),
        _ => Err(format!("usage: {name} FILE | {name} --check FILE")),
    };
    match outcome {
        Ok(message) => {
            println!("{message}");
            ExitCode::SUCCESS
        }
        Err(message) => {
            eprintln!("{message}");
            ExitCode::FAILURE
        }
    }
}
