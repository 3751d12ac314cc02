//! What stands in the header itself, by every compiler at hand, in every C and C++ that it serves.

use std::fs;
use std::process::Command;

use chronicle::layout::{Counts, Enough};
use chronicle::Refusal;

use crate::compilers::{self, built, run};
use crate::SAMPLES;

/// The sources of the programs, each its own.
pub const SOURCES: [&str; 3] = ["told.c", "short.c", "own.c"];

/// What the first program says about a record: by the Rust package.
fn expected(record: &[u8]) -> String {
    let mut told =
        format!("version {}: {}\n", chronicle::VERSION, chronicle::VERSION.replace('.', ", "));
    for number in -14_i64..=14 {
        let refusal = u8::try_from(number.abs()).ok().and_then(Refusal::from_number);
        let words = refusal.map_or("this is no refusal", Refusal::words);
        told += &format!("{number}: {words}\n");
    }
    told += "least: this is no refusal\n";
    let counts = Counts::read(record.first_chunk().expect("a head"));
    told + &room(record.len(), 0, counts.enough())
        + &room(44, 0, counts.enough())
        + &room(43, 1, Enough::default())
}

fn room(length: usize, answer: u8, enough: Enough) -> String {
    let Enough {
        changes,
        nations,
        entries,
        holders,
        held,
        counts,
        bookings,
        players,
        histories,
        names,
    } = enough;
    format!(
        "room of {length}: {answer}\nchanges {changes}\nnations {nations}\nentries {entries}\n\
         holders {holders}\nheld {held}\ncounts {counts}\nbookings {bookings}\nplayers {players}\n\
         histories {histories}\nnames {names}\n"
    )
}

/// Builds and runs one program by every compiler in every language.
fn by_all(source: &str, argument: &str, expected: &str) {
    let compilers = compilers::all();
    assert!(compilers.len() >= 5, "C of five years, and more with more compilers");
    for (number, compiler) in compilers.iter().enumerate() {
        // Of what the header brings, a program's own strict warnings find nothing.
        let strict =
            ["-O1", "-Wconversion", "-Wsign-conversion", "-Wcast-qual", "-Wredundant-decls"];
        let program = compiler.program(&format!("{source}_{number}"), &[source], &strict);
        assert_eq!(run(Command::new(&program).arg(argument)), expected, "{source} by {compiler}");
    }
}

#[test]
fn version_texts_and_room_are_the_package_s() {
    for sample in SAMPLES {
        let record = fs::read(sample).expect("a sample");
        let program = compilers::c99().program("told", &["told.c"], &[]);
        assert_eq!(run(Command::new(program).arg(sample)), expected(&record));
    }
}

/// Whatever the head counts, as the Rust package works it out.
#[test]
fn room_of_any_head() {
    let path = built("any_head.atl");
    for byte in [0, 1, 127, 128, 255] {
        let record = [byte; 44];
        fs::write(&path, record).expect("it is written");
        let program = compilers::c99().program("told_any", &["told.c"], &[]);
        let told = run(Command::new(program).arg(&path));
        let room = room(44, 0, Counts::read(&record).enough());
        assert!(told.contains(&room), "{told}\nand not\n{room}");
    }
}

#[test]
fn version_texts_and_room_in_every_language() {
    let record = fs::read(SAMPLES[1]).expect("a sample");
    by_all("told.c", SAMPLES[1], &expected(&record));
}

#[test]
fn short_names_in_every_language() {
    by_all("short.c", SAMPLES[1], "0 differences\n");
}

#[test]
fn a_program_with_functions_of_its_own_by_the_older_names() {
    by_all("own.c", "", "15 of its own, -1 of the archive\n");
}
