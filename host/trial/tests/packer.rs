//! docs/FORMAT.md: its tables and its walk through a record are true, and tools/pack_example.py, which was
//! written from that page alone, packs both samples byte for byte.
//!
//! The packer is Python. Where that isn't at hand its tests say that they were not run, and with CI=true
//! they fail.

use std::env;
use std::io::Write;
use std::path::{Path, PathBuf};
use std::process::{Command, Output};

use chronicle::layout::HEAD_COUNTS;

const FORMAT: &str = include_str!("../../../docs/FORMAT.md");

fn at_the_top(path: &str) -> PathBuf {
    Path::new(env!("CARGO_MANIFEST_DIR")).join("../..").join(path)
}

/// What the packer does with a description; none without Python.
fn packed(description: &Path) -> Option<Output> {
    let mut packer = Command::new("python3");
    packer.arg(at_the_top("tools/pack_example.py")).arg(description);
    match packer.output() {
        Ok(output) => Some(output),
        Err(error) => {
            let told = format!("the packer of docs/FORMAT.md was NOT run: python3: {error}\n");
            assert!(env::var("CI").as_deref() != Ok("true"), "{told}");
            // Not by eprintln, which a test that passes keeps to itself.
            std::io::stderr().write_all(told.as_bytes()).expect("standard error is open");
            None
        }
    }
}

fn packs(name: &str) {
    let Some(output) = packed(&at_the_top(&format!("samples/{name}.json"))) else { return };
    assert!(output.status.success(), "{}", String::from_utf8_lossy(&output.stderr));
    let record = std::fs::read(at_the_top(&format!("samples/{name}.atl"))).expect("the sample");
    assert_eq!(output.stdout, record, "samples/{name}.json");
}

#[test]
fn it_packs_the_worked_record() {
    packs("worked");
}

#[test]
fn it_packs_the_isles() {
    packs("isles");
}

#[test]
fn it_cuts_a_long_name_at_the_end_of_a_character() {
    let description = env::temp_dir().join(format!("chronicle_packer_{}.json", std::process::id()));
    let name = "é".repeat(128);
    let campaign = format!(
        "{{\"start\": \"1444-11-11\", \"current\": \"1450-01-01\", \"players\": [[\"{name}\", \"FRA\"]]}}"
    );
    std::fs::write(&description, campaign).expect("it is written");
    let output = packed(&description);
    std::fs::remove_file(&description).expect("it was there");
    let Some(output) = output else { return };
    assert_eq!(chronicle::raw::check(&output.stdout), Ok(()));
    assert_eq!(output.stdout[44], 254);
    assert_eq!(&output.stdout[45..], ["é".repeat(127).as_bytes(), b"\x03FRA"].concat());
}

/// The bytes of a line of the walk: pairs of hexadecimal digits behind the offset, up to the first word that is none.
fn walked(line: &str) -> Vec<u8> {
    let pair = |word: &&str| word.len() == 2 && word.chars().all(|c| c.is_ascii_hexdigit());
    let pairs = line.split_whitespace().skip(1).take_while(pair);
    pairs.map(|pair| u8::from_str_radix(pair, 16).expect("hexadecimal")).collect()
}

#[test]
fn its_walk_is_the_worked_record() {
    let (_, rest) = FORMAT.split_once("```text\n").expect("the walk");
    let (walk, _) = rest.split_once("```").expect("it ends");
    let mut bytes = Vec::new();
    for line in walk.lines().skip(1).filter(|line| !walked(line).is_empty()) {
        let offset = line.split_whitespace().next().expect("an offset");
        assert_eq!(offset.parse(), Ok(bytes.len()), "{line}");
        bytes.extend(walked(line));
    }
    let record = std::fs::read(at_the_top("samples/worked.atl")).expect("the sample");
    assert_eq!(bytes, record);
}

#[test]
fn its_table_of_the_head_has_every_count_and_limit() {
    let told: Vec<(String, usize, usize, usize)> = FORMAT
        .lines()
        .filter_map(|line| {
            let cells: Vec<&str> = line.trim_matches('|').split('|').map(str::trim).collect();
            let [offset, bytes, name, _, limit, _] = cells.try_into().ok()?;
            let number = |text: &str| text.replace(',', "").parse::<usize>().ok();
            let is_count = name.len() == 1 && name.chars().all(|c| c.is_ascii_uppercase());
            is_count.then_some((name.to_string(), number(offset)?, number(bytes)?, number(limit)?))
        })
        .collect();
    assert_eq!(
        told,
        HEAD_COUNTS.map(|(name, at, bytes, most)| (name.to_string(), at, bytes, most))
    );
}
