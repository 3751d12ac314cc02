//! Times the proved functions beside the Rust, in one process, on the same campaigns.
//!
//! `bench_answers [ROUNDS] [PART]`: best and median over so many rounds (default 51), the two taking
//! turns; slow cases take fewer. A part is `owners`, `nations`, `bookings`, `ledger`, `players` or
//! `page`; without one, all. The Rust works on its ready-made save, and what it answered is freed outside the
//! time. Our time contains the check of the whole record.

use std::process::ExitCode;

#[cfg(not(found))]
fn main() -> ExitCode {
    chronicle_oracle::not_found()
}

#[cfg(found)]
mod bookings;
#[cfg(found)]
mod ledgers;
#[cfg(found)]
mod nations;
#[cfg(found)]
mod orders;
#[cfg(found)]
mod owners;
#[cfg(found)]
mod page;
#[cfg(found)]
mod players;
#[cfg(found)]
mod race;

/// A part's name, and its run of so many rounds.
#[cfg(found)]
type Part = (&'static str, fn(usize));

#[cfg(found)]
const PARTS: [Part; 6] = [
    ("owners", owners::all),
    ("nations", nations::all),
    ("bookings", bookings::all),
    ("ledger", ledgers::all),
    ("players", players::all),
    ("page", page::all),
];

#[cfg(found)]
fn main() -> ExitCode {
    let texts: Vec<String> = std::env::args().skip(1).collect();
    let rounds = texts.first().map_or(Ok(51), |text| text.parse());
    let part = texts.get(1).map_or("all", String::as_str);
    let wanted = || PARTS.iter().filter(|(name, _)| part == "all" || part == *name);
    let (Ok(rounds), Some(_), true) = (rounds, wanted().next(), texts.len() <= 2) else {
        let parts: Vec<&str> = PARTS.iter().map(|(name, _)| *name).collect();
        eprintln!("usage: bench_answers [ROUNDS] [{}]", parts.join(" | "));
        return ExitCode::FAILURE;
    };
    wanted().for_each(|(_, part)| part(rounds));
    ExitCode::SUCCESS
}
