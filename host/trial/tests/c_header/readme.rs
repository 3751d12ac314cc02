//! What README and docs/CALLS.md say to those who call from C.

use std::fs;
use std::path::Path;
use std::process::{Command, Stdio};

use chronicle::Record;
use chronicle_trial::generate::{counts_of, sized};
use chronicle_trial::pack::pack;

use crate::compilers::{self, built, c99, run};
use crate::{declared, stacks, SAMPLES};

const README: &str = include_str!("../../../../README.md");
const CALLS: &str = include_str!("../../../../docs/CALLS.md");

/// The name of the stack that the C program runs a call in.
fn stack_of(call: &str) -> String {
    let source = compilers::sources(&stacks::SOURCES);
    let (_, rest) = source.split_once(&format!("{{\"{call}\", CHRONICLE_STACK_")).expect(call);
    rest.split_once(',').expect(call).0.to_string()
}

/// The rows of the table of stacks in docs/CALLS.md: calls, and KiB.
fn stacks_told() -> Vec<(String, usize)> {
    let row = |line: &'static str| {
        let (calls, kib) = line.strip_prefix("| ")?.strip_suffix(" KiB |")?.split_once(" | ")?;
        let kib: usize = kib.parse().ok()?;
        Some(calls.split(", ").map(move |call| (call.trim_matches('`').to_string(), kib)))
    };
    CALLS.lines().filter_map(row).flatten().collect()
}

#[test]
fn calls_names_the_stacks_of_the_header() {
    let told = stacks_told();
    for (call, kib) in &told {
        assert_eq!(kib * 1024, stacks::stack(&stack_of(call)), "{call}");
    }
    let calls = told.into_iter().map(|(call, _)| call);
    assert_eq!(calls.collect::<std::collections::BTreeSet<_>>(), declared());
}

/// What README's example in C prints of a record.
fn printed_by_the_example(record: &Path) -> String {
    let (_, rest) = README.split_once("```c\n").expect("README has an example in C");
    let name = record.file_stem().expect("a file").to_str().expect("a name in UTF-8");
    let source = built(&format!("example_{name}.c"));
    fs::write(&source, rest.split_once("```").expect("that ends").0).expect("it is written");
    let source = source.to_str().expect("a path in UTF-8");
    let program = c99().program(&format!("example_{name}"), &[source], &[]);
    let record = fs::File::open(record).expect("the record");
    run(Command::new(program).stdin(Stdio::from(record)))
}

#[test]
fn the_example_prints_the_owner_changes() {
    let told = printed_by_the_example(Path::new(SAMPLES[0]));
    assert_eq!(told, "14460101: province 1 to FRA\n14470101: province 2 to ENG\n");
}

#[test]
fn the_example_reads_a_file_of_any_length() {
    let bytes = pack(&sized(&counts_of(&[('C', 20), ('P', 1), ('E', 60_000)]), 3));
    assert!(400_000 < bytes.len());
    let record = built("many_changes.atl");
    fs::write(&record, &bytes).expect("it is written");
    let changes =
        Record::open(bytes).and_then(|record| record.province_owners()).expect("accepted");
    assert!(50_000 < changes.len());
    let told = printed_by_the_example(&record);
    assert_eq!(told.lines().count(), changes.len());
    let last = changes.last().expect("there are many");
    assert!(told.ends_with(&format!("province {} to {}\n", last.province, last.to)), "{last:?}");
}
