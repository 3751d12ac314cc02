//! Names of any bytes: no terminal is moved or turned by one, and for programs every byte is kept.

use std::ffi::OsStr;

use chronicle_trial::pack::pack;
use chronicle_trial::sample::isles;

use super::{run, written, Written};

/// Clears the screen, turns the line, writes on it from the left, is no UTF-8.
const NAME: &[u8] = b"A\x1b[2J\xe2\x80\xae\xe2\x81\xa6\xc2\x9b\r\\\xff";

/// As people are shown it.
const SHOWN: &str = r"A\u{1b}[2J\u{202e}\u{2066}\u{9b}\r\\\xff";

fn named() -> Written {
    let mut campaign = isles();
    campaign.strings[0] = NAME.to_vec();
    written("names.atl", &pack(&campaign))
}

/// Every command that prints a name, in every form.
#[test]
fn nothing_moves_a_terminal() {
    let file = named();
    let asked: [&[&str]; 9] = [
        &["players"],
        &["players", "--json"],
        &["players", "--csv"],
        &["histories"],
        &["histories", "--json"],
        &["histories", "--csv"],
        &["describe", "--rows"],
        &["describe", "--rows", "--json"],
        &["start"],
    ];
    for arguments in asked {
        let ran = run(&[arguments, &[file.text()]].concat());
        let bad = |letter: char| {
            letter != '\n' && (letter.is_control() || "\u{202e}\u{2066}".contains(letter))
        };
        assert_eq!((ran.status, ran.out.find(bad)), (0, None), "{arguments:?} {}", ran.out);
    }
    for command in [&["players"][..], &["histories"], &["describe", "--rows"]] {
        let out = run(&[command, &[file.text()]].concat()).out;
        assert!(out.contains(SHOWN), "{command:?} {out}");
    }
}

/// The help says how.
#[test]
fn escapes_are_explained() {
    let help = run(&["players", "--help"]).out.replace('\n', " ");
    assert!(
        help.contains(r"a name has escapes (\n, \u{202e}, \xff, and \\ for a backslash)"),
        "{help}"
    );
}

/// In JSON the name is the same text, and its bytes stand beside it.
#[test]
fn every_byte_is_kept() {
    let file = named();
    let text = r#""A\u001b[2J\u202e\u2066\u009b\u000d\\"#;
    let bytes: String = NAME.iter().map(|byte| format!("{byte:02x}")).collect();
    let asked: [(&[&str], String); 3] = [
        (&["players"], format!("\"name_bytes\":\"{bytes}\"")),
        (&["histories"], format!("\"name_bytes\":[\"{bytes}\"]")),
        (&["describe", "--rows"], format!("\"text_bytes\":\"{bytes}\"")),
    ];
    for (command, kept) in asked {
        let out = run(&[command, &[file.text(), "--json"]].concat()).out;
        let told: Vec<&str> = out.lines().filter(|line| line.contains(&kept)).collect();
        assert!(told.len() == 1 && told[0].contains(text), "{command:?} {out}");
    }
}

/// Names of files and arguments are shown likewise.
#[cfg(unix)]
#[test]
fn names_of_files() {
    use std::os::unix::ffi::OsStrExt;

    let file = written(OsStr::from_bytes(b"a\x1b[2J\xff.atl"), b"ATL");
    for command in ["check", "describe", "nations"] {
        let ran = run(&[OsStr::new(command), file.path.as_os_str()]);
        let said = ran.out + &ran.err;
        assert!(ran.status == 1 && said.contains(r"a\u{1b}[2J\xff.atl: "), "{said}");
        assert!(!said.contains('\u{1b}'), "{said}");
    }
    let gone = file.path.with_extension("gone");
    let ran = run(&[OsStr::new("check"), gone.as_os_str()]);
    assert!(ran.status == 2 && ran.err.contains(r"a\u{1b}[2J\xff.gone: "), "{ran:?}");
    let ran = super::about("isles.atl", "initial", &["a\u{202e}b"]);
    assert!(ran.status == 2 && ran.err.contains(r"`a\u{202e}b` is no tag"), "{ran:?}");
}
