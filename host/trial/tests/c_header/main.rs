//! include/chronicle.h: C and C++ programs that are compiled against it with warnings as errors and linked
//! with libpage.a, and its list of functions against the archive's.
//!
//! CC and CXX name other compilers than `cc` and `c++`. Without a C++ compiler the test fails, and says so;
//! CHRONICLE_NO_CXX=1 leaves C++ out.

mod compilers;
mod installed;
mod numbers;
mod readme;
mod stacks;
mod standards;

use std::collections::BTreeSet;
use std::process::Command;

use compilers::{c99, cpp, run, told, Compiler};

const HEADER: &str = include_str!("../../../../include/chronicle.h");

/// The sources of the program that runs the cases.
const CASES: [&str; 5] = ["main.c", "expect.c", "record.c", "lent.c", "isles.c"];

/// The two samples, as the program takes them.
const SAMPLES: [&str; 2] = [
    concat!(env!("CARGO_MANIFEST_DIR"), "/../../samples/worked.atl"),
    concat!(env!("CARGO_MANIFEST_DIR"), "/../../samples/isles.atl"),
];

/// The functions that the header declares.
fn declared() -> BTreeSet<String> {
    let names = HEADER.lines().filter_map(|line| line.strip_prefix("int64_t ")?.split_once('('));
    names.map(|(name, _)| name.to_string()).collect()
}

/// Names that `nm` lists, called with these arguments.
fn symbols(arguments: &[&str]) -> BTreeSet<String> {
    let listed = told(Command::new("nm").args(arguments), "`nm` of the binutils");
    let names = listed.lines().filter(|line| !line.ends_with(':'));
    names.filter_map(|line| Some(line.split_whitespace().next_back()?.to_string())).collect()
}

fn all_cases(compiler: &Compiler, program: &str) {
    let program = compiler.program(program, &CASES, &["-O1"]);
    let answered = run(Command::new(&program).args(SAMPLES));
    assert_eq!(answered, "0 differences\n", "{} by {compiler}", program.display());
}

#[test]
fn every_function_from_c99() {
    all_cases(&c99(), "cases_c99");
}

#[test]
fn every_function_from_cpp() {
    if let Some(compiler) = cpp() {
        all_cases(&compiler, "cases_cpp");
    }
}

#[test]
fn the_header_declares_what_the_archive_has() {
    let archive = compilers::archive();
    let exported = symbols(&["-g", "--defined-only", archive.to_str().expect("a path in UTF-8")]);
    assert_eq!(declared(), exported);
    assert_eq!(declared().len(), 17);
}

/// A program may have a `players`, a `nation_events` of its own.
#[test]
fn every_name_but_two_is_chronicle_s() {
    let others = declared().into_iter().filter(|name| !name.starts_with("chronicle_"));
    assert_eq!(others.collect::<Vec<_>>(), ["check", "page"]);
}

/// What the archive needs of others is named in the header's head.
#[test]
fn the_archive_needs_what_the_header_says() {
    let archive = compilers::archive();
    let needed = symbols(&["-u", archive.to_str().expect("a path in UTF-8")]);
    let unnamed = needed.iter().filter(|name| !HEADER.contains(name.as_str()));
    assert_eq!(unnamed.collect::<Vec<_>>(), [] as [&String; 0]);
}

/// A function or a name of the header that no case uses would be tried by nobody.
#[test]
fn the_cases_use_the_whole_header() {
    let object = c99().object("cases", &CASES);
    let called = symbols(&["-u", object.to_str().expect("a path in UTF-8")]);
    assert_eq!(declared().difference(&called).collect::<Vec<_>>(), [] as [&String; 0]);

    let sources = [&CASES[..], &stacks::SOURCES, &standards::SOURCES].concat();
    let sources = compilers::sources(&sources);
    let names = HEADER.split(|c: char| !c.is_ascii_alphanumeric() && c != '_');
    let names: BTreeSet<&str> = names.filter(|name| name.starts_with("CHRONICLE_")).collect();
    let own = ["CHRONICLE_", "CHRONICLE_H", "CHRONICLE_INLINE"];
    let unused = names.into_iter().filter(|name| !own.contains(name) && !sources.contains(name));
    assert_eq!(unused.collect::<Vec<_>>(), [] as [&str; 0]);
}
