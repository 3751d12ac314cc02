//! What `chronicle describe` knows by sight.

use std::process::Command;

use chronicle_trial::pack::pack;
use chronicle_trial::sample::isles;

use super::{run, written};

/// The first line about such bytes, and the first object.
fn seen(bytes: &[u8]) -> (String, String) {
    let file = written("seen.atl", bytes);
    let first = |rest: &[&str]| {
        let ran = run(&[&["describe", file.text()], rest].concat());
        assert_eq!((ran.status, ran.err.as_str()), (1, ""), "{ran:?}");
        ran.out.lines().next().unwrap_or_default().replace(&format!("{}: ", file.text()), "")
    };
    (first(&[]), first(&["--json"]))
}

#[track_caller]
fn is(bytes: &[u8], name: &str, words: &str) {
    let (text, object) = seen(bytes);
    assert!(text.contains(words), "{text}");
    assert!(object.starts_with(&format!("{{\"sight\":\"{name}\",\"words\":\"")), "{object}");
}

/// A record whose bytes 0a are many.
fn record() -> Vec<u8> {
    let mut campaign = isles();
    campaign.countries[0].num_of_cities = 0x0a0a;
    campaign.strings.push(b"\n\n".to_vec());
    pack(&campaign)
}

#[test]
fn other_files() {
    is(b"", "empty", "this is an empty file");
    is(b"EU4txt\ndate=1450.1.1\n", "save", "this is a save of the game, as text");
    is(b"EU4bin\x00\x01", "save", "this is a save of the game, as binary");
    is(b"PK\x03\x04\x14\x00", "zip", "this is a zip archive");
    is(b"\x1f\x8b\x08\x00", "gzip", "this is packed by gzip");
    is(
        &[b"\xef\xbb\xbf", &record()[..]].concat(),
        "byte order mark",
        "a byte order mark (ef bb bf) stands first",
    );
    is(b"\xff\xfeA\0T\0L\0", "byte order mark", "text in UTF-16");
}

/// As the tool of the system makes it.
#[test]
fn base64() {
    let file = written("plain.atl", &record());
    for wrap in ["-w0", "-w76"] {
        let output =
            Command::new("base64").args([wrap, file.text()]).output().expect("base64 is there");
        is(&output.stdout, "base64", "this is a record in base64");
    }
}

/// Every 0a with an 0d before it, and how many.
#[test]
fn carriage_returns() {
    let record = record();
    let damaged: Vec<u8> = record
        .iter()
        .flat_map(|&byte| if byte == b'\n' { vec![b'\r', byte] } else { vec![byte] })
        .collect();
    let many = damaged.len() - record.len();
    assert!(many >= 4, "{many}");
    is(&damaged, "CRLF", &format!("take out the {many} carriage returns"));
}

#[test]
fn text_in_utf_8() {
    let as_letters: String = record().iter().map(|&byte| char::from(byte)).collect();
    is(as_letters.as_bytes(), "UTF-8", "each byte from 80 on has become two");
    let lossy = String::from_utf8_lossy(&record()).into_owned();
    is(lossy.as_bytes(), "UTF-8", "bytes were replaced by U+FFFD");
}

/// A record that is only bad is none of these, and one that is good is not looked at so.
#[test]
fn nothing_else() {
    let mut record = record();
    record[5] = 9;
    let (text, object) = seen(&record);
    assert!(text.starts_with("the head, at offset 5: "), "{text}");
    assert!(object.starts_with("{\"refused\":6,"), "{object}");
    record.pop();
    assert!(seen(&record).1.starts_with("{\"refused\":3,"));
}
