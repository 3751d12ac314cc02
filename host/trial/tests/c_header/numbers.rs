//! Widths, kinds, offsets and refusals: the Rust package's are the header's.

use std::collections::BTreeMap;
use std::fs;
use std::path::{Path, PathBuf};

use chronicle::layout::{self, HEAD_COUNTS};
use chronicle::{rows, Refusal};

use crate::compilers::at;
use crate::{declared, HEADER};

/// The header's names that begin so, without that, and their numbers.
fn named(start: &str) -> BTreeMap<String, usize> {
    let number = |line: &str| {
        let (name, rest) = line.trim().strip_prefix(start)?.split_once(" = ")?;
        let digits = rest.split(|c: char| !c.is_ascii_digit()).next()?;
        Some((name.to_string(), digits.parse().ok()?))
    };
    HEADER.lines().filter_map(number).collect()
}

fn table(rows: &[(&str, usize)]) -> BTreeMap<String, usize> {
    rows.iter().map(|&(name, number)| (name.to_string(), number)).collect()
}

#[test]
fn widths_of_rows() {
    let widths = named("CHRONICLE_").into_iter().filter(|(name, _)| name.ends_with("_WORDS"));
    let own = table(&[
        ("CHANGE_WORDS", rows::CHANGE_WORDS),
        ("RUN_WORDS", rows::RUN_WORDS),
        ("NATION_WORDS", rows::NATION_WORDS),
        ("ENTRY_WORDS", rows::ENTRY_WORDS),
        ("COUNT_WORDS", rows::COUNT_WORDS),
        ("RESOLVED_WORDS", rows::RESOLVED_WORDS),
        ("QUESTION_WORDS", rows::QUESTION_WORDS),
        ("BOOKING_WORDS", rows::BOOKING_WORDS),
        ("LEDGER_WORDS", rows::LEDGER_WORDS),
        ("PLAYER_WORDS", rows::PLAYER_WORDS),
        ("HISTORY_WORDS", rows::HISTORY_WORDS),
    ]);
    assert_eq!(widths.collect::<BTreeMap<_, _>>(), own);
}

#[test]
fn kinds_of_entries() {
    let kinds = [rows::KIND_SWITCH, rows::KIND_APPEARED, rows::KIND_ANNEXED].map(|k| k as usize);
    let own = ["SWITCH", "APPEARED", "ANNEXED"].into_iter().zip(kinds).collect::<Vec<_>>();
    assert_eq!(named("CHRONICLE_KIND_"), table(&own));
}

#[test]
fn offsets_in_the_head() {
    let own = table(&[
        ("COUNTRIES", layout::COUNTRIES_AT),
        ("PROVINCES", layout::PROVINCES_AT),
        ("SWITCHES", layout::SWITCHES_AT),
        ("EVENTS", layout::OWNER_EVENTS_AT),
        ("STRINGS", layout::STRINGS_AT),
        ("WAR_EVENTS", layout::WAR_EVENTS_AT),
        ("BYTES", layout::HEAD),
    ]);
    assert_eq!(named("CHRONICLE_HEAD_"), own);
    for (letter, offset, bytes, _) in HEAD_COUNTS {
        let told = format!(" = {offset},");
        let Some(line) = HEADER.lines().find(|l| l.contains("_HEAD_") && l.contains(&told)) else {
            assert!("AWGY".contains(letter), "{letter} is in the header");
            continue;
        };
        assert!(line.contains(&format!("/* {letter}, {bytes} bytes */")), "{line}");
    }
}

/// `NotARecord` is NOT_A_RECORD, and so for each.
#[test]
fn refusals_have_one_spelling() {
    let shouted = |refusal: Refusal| {
        let name = format!("{refusal:?}");
        let name = name.split('(').next().unwrap_or_default();
        let letter = |(place, c): (usize, char)| {
            let gap = if place > 0 && c.is_uppercase() { "_" } else { "" };
            format!("{gap}{}", c.to_ascii_uppercase())
        };
        (name.chars().enumerate().map(letter).collect::<String>(), usize::from(refusal.number()))
    };
    let own: BTreeMap<String, usize> = Refusal::ALL.into_iter().map(shouted).collect();
    assert_eq!(named("CHRONICLE_REFUSED_"), own);
}

/// A call of the header has its name in the package too, behind `chronicle_` and `resolver_`: what is lent and
/// counted in module `raw`, and as a value of a record or its chronicle.
#[test]
fn calls_have_one_spelling() {
    let text = |file: &PathBuf| fs::read_to_string(file).expect("a source");
    let (raw, values): (Vec<PathBuf>, Vec<PathBuf>) =
        package(&at("../src")).into_iter().partition(|file| file.iter().any(|part| part == "raw"));
    let [raw, values] = [raw, values].map(|files| files.iter().map(text).collect::<String>());
    // These have another name as values, or none: a record that is opened is checked, and its chronicle is its
    // nations' events; the raw page writes.
    let aside = ["check", "nation_events", "nation_ledger_rows", "resolve_at", "initial_at"];
    for name in declared() {
        let name = name.trim_start_matches("chronicle_").trim_start_matches("resolver_");
        let told = format!("pub fn {name}(");
        assert!(raw.contains(&told) || name == "page", "raw has no {name}");
        assert!(values.contains(&told) || aside.contains(&name), "values have no {name}");
    }
}

#[test]
fn version() {
    let [major, minor, patch] = ["MAJOR", "MINOR", "PATCH"].map(|part| {
        let start = format!("#define CHRONICLE_VERSION_{part} ");
        HEADER.lines().find_map(|line| line.strip_prefix(&start)).expect("the header has it")
    });
    assert_eq!(format!("{major}.{minor}.{patch}"), chronicle::VERSION);
    assert!(HEADER.contains(&format!("#define CHRONICLE_VERSION \"{}\"", chronicle::VERSION)));
}

/// The sources of the package, its tests aside.
fn package(folder: &Path) -> Vec<PathBuf> {
    let entries = fs::read_dir(folder).expect("a folder").map(|entry| entry.expect("an entry"));
    let (folders, files): (Vec<PathBuf>, Vec<PathBuf>) =
        entries.map(|entry| entry.path()).partition(|path| path.is_dir());
    let below = folders.iter().flat_map(|folder| package(folder));
    let sources = files.into_iter().filter(|file| !file.ends_with("tests.rs"));
    below.chain(sources).collect()
}

/// Whether a line has a width as a bare number: of rows, of one, or of memory that is lent or kept.
fn has_bare_width(line: &str) -> bool {
    let places =
        ["as_chunks::<W>", "[u32; W]", "vec![0; W *", "vec![1; W *", "[..W *", "truncate(W *"];
    let widths = ["2", "3", "4", "5", "7"];
    let bare = |place: &str| widths.iter().any(|width| line.contains(&place.replace('W', width)));
    places.into_iter().any(bare)
}

/// A width stands as a number where the model says what its rows are, and in the package's module `rows`: in
/// all other code it has its name.
#[test]
fn no_width_is_a_bare_number() {
    let folders = ["../src", "../command/src", "../oracle/src", "src"];
    let sources: Vec<PathBuf> = folders.iter().flat_map(|folder| package(&at(folder))).collect();
    let own = ["src/rows.rs", "src/rows/mod.rs", "src/rows/ledger.rs", "src/rows/players.rs"];
    // The model's pages and shapes, and pairs of strings, which are no row of words.
    let others = ["model/page.rs", "model/shape.rs", "seen/players.rs"];
    let named = |file: &&PathBuf| !own.iter().chain(&others).any(|end| file.ends_with(end));
    let mut found = Vec::new();
    for source in sources.iter().filter(named) {
        let text = fs::read_to_string(source).expect("a source");
        let aside = ["//", "const "];
        let code =
            text.lines().filter(|line| !aside.iter().any(|a| line.trim_start().starts_with(a)));
        found.extend(code.filter(|line| has_bare_width(line)).map(|l| format!("{source:?}: {l}")));
    }
    assert_eq!(found, [] as [&str; 0]);
    assert!(sources.len() > 100, "{sources:?}");
}
