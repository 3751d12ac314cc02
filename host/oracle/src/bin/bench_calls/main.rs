//! Times every call beside the Rust, in one process and by turns, on four records, and prints the table
//! that docs/BENCHMARKS.md keeps; or on the first of them growing to the limits.
//!
//! `bench_calls [ROUNDS] [growth]`: the best of so many rounds (default 21; a slow pair takes fewer), the thread's own
//! time. What is lent is lent again in each round; what the Rust answers is freed outside its time, and the
//! memory kept for the next.

use std::process::ExitCode;

#[cfg(not(found))]
fn main() -> ExitCode {
    chronicle_oracle::not_found()
}

#[cfg(found)]
mod calls;
#[cfg(found)]
mod given;
#[cfg(found)]
mod race;
#[cfg(found)]
mod records;

#[cfg(found)]
fn main() -> ExitCode {
    let texts: Vec<String> = std::env::args().skip(1).collect();
    let rounds = texts.first().map_or(Ok(21), |text| text.parse());
    let records = match texts.get(1..).unwrap_or_default() {
        [] => Some(&records::RECORDS),
        [part] if part == "growth" => Some(&records::GROWTH),
        _ => None,
    };
    let (Ok(rounds), Some(records)) = (rounds, records) else {
        eprintln!("usage: bench_calls [ROUNDS] [growth]");
        return ExitCode::from(2);
    };
    race::keep_what_is_freed();
    print::all(rounds, records);
    ExitCode::SUCCESS
}

#[cfg(found)]
mod print {
    use crate::calls::{CALLS, LEGEND};
    use crate::given::Given;
    use crate::race::Best;
    use crate::records::Record;

    /// A row of the table for each call, and a line for each record that says what it is.
    pub fn all(rounds: usize, records: &[Record]) {
        let mut cells = vec![Vec::new(); CALLS.len()];
        for record in records {
            let given = Given::of(record);
            println!("- {}: {}", record.name, given.told());
            for ((name, call), cells) in CALLS.iter().zip(&mut cells) {
                eprintln!("{}: {name}", record.name);
                cells.push(call(&given, rounds).as_ref().map_or("".to_string(), Best::told));
            }
        }
        println!("\nMicroseconds, the Rust / ours, and their ratio; best of {rounds} rounds.\n");
        let names: Vec<&str> = records.iter().map(|record| record.name).collect();
        println!("| call | {} |\n|---|{}", names.join(" | "), "---|".repeat(names.len()));
        let asked = |cells: &&Vec<String>| cells.iter().any(|cell| !cell.is_empty());
        for ((name, _), cells) in CALLS.iter().zip(&cells).filter(|(_, cells)| asked(cells)) {
            println!("| `{name}` | {} |", cells.join(" | "));
        }
        println!("\n{LEGEND}");
    }
}
