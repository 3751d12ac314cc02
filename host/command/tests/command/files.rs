//! `chronicle check` of several files.

use super::{about, command, ended, run, sample, written, Ran};

#[test]
fn each_is_told() {
    let (good, cut) = (sample("isles.atl"), written("cut.atl", b"ATL"));
    let good = good.to_str().expect("it is text");
    let Ran { status, out, err } = run(&["check", good, cut.text(), good]);
    let lines: Vec<&str> = out.lines().collect();
    assert_eq!((status, lines.len(), err.as_str()), (1, 3, ""));
    assert_eq!(lines[0], format!("{good}: accepted"));
    assert_eq!(lines[2], lines[0]);
    assert!(lines[1].starts_with(&format!("{}: refused 1: ", cut.text())), "{out}");
    assert_eq!(run(&["check", good, good]).status, 0);
}

/// One that cannot be read is told beside, and the others all the same.
#[test]
fn one_that_cannot_be_read() {
    let (good, cut) = (sample("isles.atl"), written("cut.atl", b"ATL"));
    let good = good.to_str().expect("it is text");
    let ran = run(&["check", "no_such_file.atl", cut.text(), good]);
    assert_eq!((ran.status, ran.out.lines().count()), (2, 2), "{ran:?}");
    assert!(ran.err.starts_with("chronicle: no_such_file.atl: "), "{ran:?}");
}

/// Of several files an object says which it is about.
#[test]
fn objects_and_tables() {
    let good = sample("isles.atl");
    let good = good.to_str().expect("it is text");
    let out = run(&["check", good, good, "--json"]).out;
    assert_eq!(out, format!("{{\"file\":\"{good}\",\"accepted\":true}}\n").repeat(2));
    let cut = written("cut.atl", b"ATL");
    let out = run(&["check", good, cut.text(), "--csv"]).out;
    let lines: Vec<&str> = out.lines().collect();
    assert_eq!(lines[..2], ["file,accepted,refused,words,advice", &format!("{good},true,,,")]);
    assert!(lines[2].starts_with(&format!("{},,1,these bytes do not begin", cut.text())), "{out}");
    // The names of samples end with what was asked for.
    assert!(about("isles.atl", "check", &["--csv"]).out.contains("isles.atl,true,,,\n"));
}

/// Standard input is bounded as a file is.
#[cfg(target_os = "linux")]
#[test]
fn standard_input_without_end() {
    let zero = std::fs::File::open("/dev/zero").expect("it is there");
    let output = command().args(["check", "-"]).stdin(zero).output().expect("it starts");
    let ran = ended(output);
    assert!(ran.status == 1 && ran.out.starts_with("standard input: refused 1: "), "{ran:?}");
}

/// What takes over a second is told at a terminal, and nowhere else.
#[cfg(target_os = "linux")]
#[test]
fn progress() {
    let program = env!("CARGO_BIN_EXE_chronicle");
    let line = |rest: &str| {
        format!("(sleep 3; cat {}) | {program} check - {rest}", sample("isles.atl").display())
    };
    if let Some(text) = super::at_terminal(&line("")) {
        assert!(text.contains("check of standard input, "), "{text:?}");
        assert!(text.ends_with("standard input: accepted\r\n"), "{text:?}");
    }
    let output = std::process::Command::new("sh").args(["-c", &line("")]).output();
    let ran = ended(output.expect("it starts"));
    assert_eq!((ran.status, ran.err.as_str()), (0, ""));
}
