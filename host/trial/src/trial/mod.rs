//! Calls of the proved functions with every lent cell accounted for.
//!
//! Each function is called with ample, exact and short slices between guard cells. [`TRIED`]
//! says which.

mod bookings;
mod ledgers;
mod nations;
mod owners;
mod page;
mod players;
mod resolver;

pub use bookings::booked;
pub use ledgers::{ledger_told, ledgers_told, rows_told};
pub use page::paged;
pub use players::{begun, played, recalled};
pub use resolver::{asked, asked_each};

use chronicle::raw::check;
use chronicle::Refusal;

use crate::model::Chronicle;
use crate::pack::{Date, Tag};
use crate::rows::{Booking, History, LedgerRow, Nation, Player, Question, Resolved, Run};

/// The functions that are called.
pub const TRIED: &[&str] = &[
    "check",
    "province_owners",
    "events_on",
    "nation_events",
    "resolve, initial, resolve_at, initial_at, resolve_each",
    "war_participants",
    "nation_ledger, nation_ledger_rows, nation_ledgers",
    "players",
    "player_histories",
    "starting_country",
    "page",
];

/// Holds every function's answers on an accepted record against these; `Err` says what differs.
///
/// ```
/// use chronicle_trial::{model, sample, trial};
///
/// let chronicle = model::chronicle(&sample::worked());
/// let runs = [14460101, 14460102].map(|day| (day, model::events_on(&chronicle.changes, day)));
/// assert_eq!(trial::accepted(sample::WORKED, &chronicle, &runs), Ok(()));
/// ```
pub fn accepted(record: &[u8], chronicle: &Chronicle, runs: &[(Date, Run)]) -> Result<(), String> {
    same("check", &check(record), &Ok(()))?;
    owners::accepted(record, &chronicle.changes, runs)?;
    nations::accepted(record, chronicle)
}

/// Holds every function's answer on a refused record against the refusal.
///
/// ```
/// use chronicle::Refusal;
/// use chronicle_trial::{sample, trial};
///
/// assert_eq!(trial::refused(&sample::WORKED[..102], Refusal::SizesDisagree), Ok(()));
/// ```
pub fn refused(record: &[u8], refusal: Refusal) -> Result<(), String> {
    same("check", &check(record), &Err(refusal))?;
    owners::refused(record, refusal)?;
    nations::refused(record, refusal)?;
    bookings::refused(record, refusal)?;
    ledgers::refused(record, refusal)?;
    players::refused(record, refusal)?;
    page::refused(record, refusal)
}

/// Holds the resolver's answers about a list of nations against these, one by one, and those to
/// all questions for a tag on a date by one call besides.
///
/// ```
/// use chronicle_trial::{model, rows::{tag_word, Question}, sample, trial};
///
/// let nations = model::chronicle(&sample::worked()).nations;
/// let asked = [14480531, 14480601].map(|date| {
///     let question = Question::Resolve { tag: tag_word(*b"GBR"), date };
///     (question, model::answer(&nations, question))
/// });
/// assert_eq!(trial::resolver(&nations, &asked), Ok(()));
/// ```
pub fn resolver(nations: &[Nation], asked: &[(Question, Option<Resolved>)]) -> Result<(), String> {
    resolver::answered(nations, asked)
}

/// Holds the bookings of an accepted record by a list of nations against these.
///
/// ```
/// use chronicle_trial::{model, sample, trial};
///
/// let nations = model::chronicle(&sample::worked()).nations;
/// assert_eq!(trial::bookings(sample::WORKED, &nations, &[]), Ok(()));
/// ```
pub fn bookings(record: &[u8], nations: &[Nation], bookings: &[Booking]) -> Result<(), String> {
    bookings::accepted(record, nations, bookings)
}

/// Holds the ledgers of an accepted record's nations against these: all by one call, and those with
/// these numbers each by a call of its own.
///
/// ```
/// use chronicle_trial::{model, sample, trial};
///
/// let nations = model::chronicle(&sample::worked()).nations;
/// let ledgers = vec![vec![]; nations.len()];
/// assert_eq!(trial::ledgers(sample::WORKED, &nations, &ledgers, &[0, 1]), Ok(()));
/// ```
pub fn ledgers(
    record: &[u8],
    nations: &[Nation],
    ledgers: &[Vec<LedgerRow>],
    each: &[usize],
) -> Result<(), String> {
    ledgers::accepted(record, nations, ledgers, each)
}

/// Holds the players of an accepted record against these.
///
/// ```
/// use chronicle_trial::{sample, trial};
///
/// assert_eq!(trial::players(sample::WORKED, &[]), Ok(()));
/// ```
pub fn players(record: &[u8], players: &[Player]) -> Result<(), String> {
    players::accepted(record, players)
}

/// Holds the histories of an accepted record by a list of nations against these.
///
/// ```
/// use chronicle_trial::{model, sample, trial};
///
/// let nations = model::chronicle(&sample::worked()).nations;
/// assert_eq!(trial::histories(sample::WORKED, &nations, &[]), Ok(()));
/// ```
pub fn histories(record: &[u8], nations: &[Nation], histories: &[History]) -> Result<(), String> {
    players::histories(record, nations, histories)
}

/// Holds the tag that play began with, by well-shaped history words, against this one.
///
/// ```
/// use chronicle_trial::{model, rows::tag_word, sample, trial};
///
/// let nations = model::chronicle(&sample::worked()).nations;
/// let [eng, fra] = [*b"ENG", *b"FRA"].map(tag_word);
/// let words = [eng, eng, eng, 0, 0, 0, 0, fra, fra, fra, 1, 0, 0, 0];
/// assert_eq!(trial::starting(&nations, &words, Some(*b"ENG")), Ok(()));
/// ```
pub fn starting(nations: &[Nation], words: &[u32], start: Option<Tag>) -> Result<(), String> {
    players::starting(nations, words, start)
}

/// Holds the page of a record for a selection against this one, or against its refusal.
///
/// ```
/// use chronicle_trial::{model, sample, trial};
///
/// let expected = model::page(sample::WORKED, b"GBR\n");
/// assert_eq!(trial::page(sample::WORKED, b"GBR\n", &expected), Ok(()));
/// ```
pub fn page(
    record: &[u8],
    selection: &[u8],
    expected: &Result<Vec<u8>, Refusal>,
) -> Result<(), String> {
    page::answered(record, selection, expected)
}

/// Less than a row of nations, and less than a row of entries, in place of the last row or of nothing.
fn torn<'a>(rows: chronicle::raw::Chronicle<'a>) -> [chronicle::raw::Chronicle<'a>; 2] {
    let cut = |words: &'a [u32]| match words.len() {
        0 => &[0][..],
        length => &words[..length - 1],
    };
    [
        chronicle::raw::Chronicle { nations: cut(rows.nations), ..rows },
        chronicle::raw::Chronicle { entries: cut(rows.entries), ..rows },
    ]
}

fn same<T: PartialEq + std::fmt::Debug>(what: &str, found: &T, expected: &T) -> Result<(), String> {
    if found == expected {
        return Ok(());
    }
    Err(format!("{what} answers {found:?} and not {expected:?}"))
}
