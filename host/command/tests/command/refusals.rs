//! Refusals: number, words and what to do, and status 1.

use std::fs;

use chronicle_trial::edges;

use super::{about, run, sample, written, Ran, Written};

/// The worked record without its last byte.
fn cut() -> Written {
    let bytes = fs::read(sample("worked.atl")).expect("the sample is there");
    written("cut.atl", &bytes[..102])
}

const WORDS: &str = "refused 3: the record holds too many rows, or they do not add up to what its \
                     head says; look for a file that was cut off or added to, else pack it again \
                     within the limits\n";

#[test]
fn of_a_record() {
    let file = cut();
    let name = file.text();
    let refused = |command: &str| run(&["--", command, file.text()]);
    // To be refused is what `check` is asked about; elsewhere it is no answer.
    let ran = Ran { status: 1, out: format!("{name}: {WORDS}"), err: String::new() };
    assert_eq!(refused("check"), ran);
    for command in
        ["owners", "nations", "wars", "players", "histories", "start", "page", "timeline"]
    {
        let ran = Ran { status: 1, out: String::new(), err: format!("{name}: {WORDS}") };
        assert_eq!(refused(command), ran, "{command}");
    }
}

#[test]
fn of_a_record_for_programs() {
    let file = cut();
    let object = concat!(
        r#"{"refused":3,"words":"the record holds too many rows, or they do not add up to what "#,
        r#"its head says","advice":"look for a file that was cut off or added to, else pack it "#,
        "again within the limits\"}\n"
    );
    for command in ["check", "nations"] {
        let ran = run(&[command, file.text(), "--json"]);
        assert_eq!(
            ran,
            Ran { status: 1, out: object.to_string(), err: String::new() },
            "{command}"
        );
    }
}

#[test]
fn of_a_description() {
    let file = cut();
    let ran = run(&["describe", file.text()]);
    assert_eq!((ran.status, ran.err.as_str()), (1, ""));
    let place = "the end of the record, at offset 102: the record ends after 102 bytes, and its rows need 103";
    assert!(ran.out.starts_with(&format!("{}: {place}\n{WORDS}", file.text())), "{}", ran.out);

    let mut bytes = fs::read(sample("isles.atl")).expect("the sample is there");
    bytes[44 + 12] = b'!';
    let file = written("bad_tag.atl", &bytes);
    let ran = run(&["describe", file.text(), "--json"]);
    let object = concat!(
        r#","place":"country !BR (row 1)","section":"country","row":1,"offset":56,"#,
        r#""found":"its tag is `!BR`, the bytes [21, 42, 52]","row_offset":56,"#,
        r#""bytes":"214252000300000001000100"}"#
    );
    let first = ran.out.lines().next().unwrap_or_default();
    assert!(ran.status == 1 && first.ends_with(object), "{first}");
}

/// Whatever the bytes, a description ends by itself, with 1 where the record is refused.
#[test]
fn of_descriptions_of_every_edge() {
    for edge in edges::all().iter().step_by(5) {
        let file = written("edge.atl", &edge.record);
        let ran = run(&["describe", file.text()]);
        assert_eq!(ran.status, i32::from(edge.number != 0), "{}: {ran:?}", edge.name);
        let number = format!("refused {}:", edge.number);
        assert!(edge.number == 0 || ran.out.contains(&number), "{}: {ran:?}", edge.name);
    }
}

#[test]
fn of_a_question() {
    let refused = |command, rest: &[&str], number: u8, more: &str| {
        let ran = about("worked.atl", command, rest);
        // A bad tag or date is wrong usage.
        let status = if number == 12 { 2 } else { 1 };
        assert_eq!((ran.status, ran.out.as_str()), (status, ""), "{ran:?}");
        assert!(ran.err.contains(&format!(": refused {number}: ")), "{ran:?}");
        assert!(ran.err.ends_with(&format!("\n{more}\n")), "{ran:?}");
    };
    refused("on", &["1444-02-29"], 12, "`1444-02-29` is no day");
    refused("resolve", &["England", "1444-11-11"], 12, "`England` is no tag");
    refused("initial", &["ENG", "--at", "yesterday"], 12, "`yesterday` is no day");
    refused("page", &["GBR", "gb"], 12, "`gb` is no tag");
    let ran = about("worked.atl", "page", &["gb", "--json"]);
    assert!(ran.status == 2 && ran.out.ends_with("\"found\":\"`gb` is no tag\"}\n"), "{ran:?}");
    refused("timeline", &["--from", "1444-02-30"], 12, "`1444-02-30` is no day");
    refused("timeline", &["GBR", "--to=later"], 12, "`later` is no day");
    let none = "no nation is stored under SCO: `chronicle nations` lists them";
    refused("ledger", &["SCO"], 13, none);
}
