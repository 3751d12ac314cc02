//! What the campaign chronicle is tried with.
//!
//! A writer and a reader of packed records and an independent checker of them ([`pack`],
//! [`mod@unpack`], [`mod@reference`]), campaigns and damage ([`generate`], [`adversary`], [`wars`],
//! [`extremes`], [`lists`], [`edges`], [`damage`], [`cases`], [`sample`], [`shrink`],
//! [`vectors`]), memory to lend and the program `page`, run ([`guard`], [`seal`], [`program`]),
//! calls with every cell accounted for ([`trial`]), an independent model of the answers ([`model`])
//! with its rows ([`rows`]), stored answers ([`stored`]), answers about lent chronicles as values
//! ([`told`]), a second count of who holds what ([`recount`]), and what the answers of one record
//! owe each other ([`guarantee`]).
//!
//! `Rules 4.3` in the comments is that rule of docs/RULES.md.

mod draw;
pub mod guarantee;
mod memory;
pub mod model;
mod packed;
pub mod recount;
pub mod rows;
pub mod stored;
pub mod told;
pub mod trial;
pub mod vectors;

pub use draw::{adversary, cases, damage, edges, extremes, generate, lists, sample, shrink, wars};
pub use memory::{guard, program, seal};
pub use packed::{calendar, pack, reference, unpack};

use chronicle::Refusal;

/// The answer as Rules 2.2 numbers it: 0 for accepted, else the refusal's number.
///
/// ```
/// use chronicle::raw::check;
/// use chronicle_trial::{number, sample};
///
/// assert_eq!(number(check(sample::WORKED)), 0);
/// assert_eq!(number(check(b"ATL")), 1);
/// ```
pub fn number(answer: Result<(), Refusal>) -> u8 {
    answer.err().map_or(0, Refusal::number)
}
