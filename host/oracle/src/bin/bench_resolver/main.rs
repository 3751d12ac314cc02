//! Times the resolver beside the Rust's, in one process, on the same chronicles.
//!
//! `bench_resolver [ROUNDS]`: best and median over so many rounds (default 51), the two taking
//! turns; slow cases take fewer. The Rust's time is `TagResolver::create` and the questions, ours
//! the call, its test for shape included. What the Rust made is freed outside its time.
//! Times are the thread's own: other work on the machine does not count, though it may disturb caches.

use std::process::ExitCode;

#[cfg(not(found))]
fn main() -> ExitCode {
    chronicle_oracle::not_found()
}

#[cfg(found)]
fn main() -> ExitCode {
    run::main()
}

#[cfg(found)]
mod lent;
#[cfg(found)]
mod made;
#[cfg(found)]
mod run;
