//! The command `compare`: it goes through records, and stops at each wrong answer.

#![cfg(found)]

use std::fs;
use std::path::{Path, PathBuf};
use std::process::{Command, Output};

use chronicle_oracle::rust::Falsified;
use chronicle_trial::{pack::pack, reference::refusal_number, sample};

/// An empty folder of this name.
fn folder(name: &str) -> PathBuf {
    let path = Path::new(env!("CARGO_TARGET_TMPDIR")).join(name);
    let _ = fs::remove_dir_all(&path);
    fs::create_dir_all(&path).expect("a folder can be made");
    path
}

/// The command run in a folder: its status, and what it said.
fn compare(folder: &Path, arguments: &[&str]) -> (Option<i32>, String, String) {
    let output =
        Command::new(env!("CARGO_BIN_EXE_compare")).args(arguments).current_dir(folder).output();
    let Output { status, stdout, stderr } = output.expect("the command runs");
    let [said, complained] = [stdout, stderr].map(|text| String::from_utf8(text).expect("text"));
    (status.code(), said, complained)
}

#[test]
fn a_folder_of_records() {
    let folder = folder("records");
    fs::write(folder.join("worked.atl"), sample::WORKED).unwrap();
    fs::write(folder.join("isles.atl"), pack(&sample::isles())).unwrap();
    fs::write(folder.join("short.atl"), &sample::WORKED[..102]).unwrap();
    fs::write(folder.join("notes.txt"), "no record").unwrap();
    let (status, said, complained) = compare(&folder, &["."]);
    assert_eq!((status, complained.as_str()), (Some(0), ""));
    assert!(said.contains("3 records, 1 of them refused: no difference"), "{said}");
    assert!(said.contains("times  compared\n"), "{said}");
    assert!(said.contains("times  hard cases met\n"), "{said}");
    assert!(said.contains("          14  row: change\n"), "{said}");

    let (status, said, _) = compare(&folder, &["isles.atl"]);
    assert_eq!(status, Some(0));
    assert!(said.contains("1 records, 0 of them refused: no difference"), "{said}");
}

/// The last line of what was said.
fn verdict(said: &str) -> &str {
    said.lines().last().unwrap_or_default()
}

/// A run ends in one line with its verdict, whichever it is.
#[test]
fn the_last_line_is_the_verdict() {
    let folder = folder("verdicts");
    fs::write(folder.join("worked.atl"), sample::WORKED).unwrap();
    fs::write(folder.join("short.atl"), &sample::WORKED[..102]).unwrap();
    let said = |arguments: &[&str]| {
        let (status, said, _) = compare(&folder, arguments);
        (status, verdict(&said).to_string())
    };
    let told = |status, verdict: &str| (Some(status), verdict.to_string());
    let records = "verdict: no difference in 2 records, 1 of them refused";
    assert_eq!(said(&["."]), told(0, records));
    let drawn = "verdict: no difference in 40 small campaigns, 10 damaged records, 192 pages near their limits and 0 of the \
                 campaigns at the limits, seed 3";
    assert_eq!(said(&["40", "3", "0"]), told(0, drawn));
    let difference = "verdict: a DIFFERENCE, told above on standard error";
    assert_eq!(said(&["--falsify", "changes", "worked.atl"]), told(1, difference));
    assert_eq!(said(&["nowhere"]), told(2, "verdict: NOTHING was compared"));
}

/// Both answers are told: about a record, or about rows that were lent.
fn told_of_both(complained: &str) -> bool {
    let has = |texts: [&str; 3]| texts.iter().all(|text| complained.contains(text));
    has(["DIFFERENCE in this record", "  the Rust  ", "\n  differs  "])
        || has(["DIFFERENCE: ", "\n  the Rust:  ", "\n  the model: "])
}

/// Every answer, made wrong, is noticed in drawn campaigns, and told of a small record.
#[test]
fn a_wrong_answer_stops_the_run() {
    for (name, _) in Falsified::ALL {
        let folder = folder(&format!("wrong_{name}"));
        let (status, said, complained) = compare(&folder, &["--falsify", name, "500", "1", "0"]);
        assert_eq!(status, Some(1), "{name}: {said}");
        assert!(!said.contains("no difference"), "{name}: {said}");
        assert!(told_of_both(&complained), "{name}: {complained}");
        let record = fs::read(folder.join("difference.atl")).expect("the record is kept");
        assert_eq!(refusal_number(&record), 0, "{name}");
        assert!(record.len() < 140, "{name}: {} bytes", record.len());
    }
}

/// So it is in a record that has something of everything, each time side by side.
#[test]
fn a_wrong_answer_about_the_sample() {
    let folder = folder("wrong_sample");
    fs::write(folder.join("isles.atl"), pack(&sample::isles())).unwrap();
    for (name, _) in Falsified::ALL {
        let (status, _, complained) = compare(&folder, &["--falsify", name, "isles.atl"]);
        assert_eq!(status, Some(1), "{name}");
        assert!(complained.contains("DIFFERENCE in this record"), "{name}: {complained}");
        assert!(complained.contains("\n  differs  "), "{name}: {complained}");
    }
}

#[test]
fn a_wrong_answer_about_a_record_of_the_readers() {
    let folder = folder("wrong_record");
    fs::write(folder.join("worked.atl"), sample::WORKED).unwrap();
    let (status, _, complained) = compare(&folder, &["worked.atl", "--falsify", "changes"]);
    assert_eq!(status, Some(1));
    let told = "\
DIFFERENCE in this record:
72 bytes, from 14441111 to 14500101, flags 0
province 1 of ENG; 14460101 FRA
province 2 of FRA; 14470101 ENG

owner changes         the Rust            the library
                      14460101 1 ENG FRA  14460101 1 ENG FRA
  differs             -                   14470101 2 FRA ENG

the record is in difference.atl
";
    assert!(complained.ends_with(told), "{complained}");
}

#[test]
fn what_cannot_be_read_or_understood() {
    let folder = folder("nothing");
    let status = |arguments: &[&str]| compare(&folder, arguments).0;
    assert_eq!(status(&["nowhere"]), Some(2));
    assert_eq!(status(&["."]), Some(2));
    assert_eq!(status(&["1", "2", "3", "4"]), Some(2));
    assert_eq!(status(&["--falsify", "weather"]), Some(2));
    let (status, said, _) = compare(&folder, &["--help"]);
    assert_eq!(status, Some(0));
    assert!(said.starts_with("usage: compare"));
}
