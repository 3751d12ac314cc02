//! Each count at its limit, and one above it with all its rows in place.

use chronicle::layout::{Counts, LIMITS};
use chronicle::raw::check;
use chronicle::Refusal;
use chronicle_trial::generate::{at_limits, counts_of, sized};
use chronicle_trial::pack::{pack, Campaign};

/// The limit passes and one more is refused; `owners` are the rows they belong to.
fn at_and_above(letter: char, limit: usize, owners: &[(char, usize)]) {
    let record = |count| {
        let counts = [owners, &[(letter, count)]].concat();
        pack(&sized(&counts_of(&counts), 7))
    };
    assert_eq!(check(&record(limit)), Ok(()));
    assert_eq!(check(&record(limit + 1)), Err(Refusal::SizesDisagree));
}

#[test]
fn countries() {
    at_and_above('C', 2_000, &[]);
}

#[test]
fn provinces() {
    at_and_above('P', 8_000, &[]);
}

#[test]
fn previous_tags() {
    at_and_above('A', 20_000, &[('C', 1)]);
}

#[test]
fn switches() {
    at_and_above('B', 20_000, &[('C', 3)]);
}

#[test]
fn owner_events() {
    at_and_above('E', 60_000, &[('P', 1)]);
}

#[test]
fn strings() {
    at_and_above('N', 1_000, &[]);
}

#[test]
fn wars() {
    at_and_above('W', 5_000, &[]);
}

#[test]
fn war_events() {
    at_and_above('V', 100_000, &[('W', 2)]);
}

#[test]
fn ledger_names() {
    at_and_above('G', 2_000, &[]);
}

#[test]
fn points() {
    at_and_above('Y', 1_000_000, &[('G', 16)]);
}

#[test]
fn everything_at_once() {
    assert_eq!(check(&pack(&at_limits())), Ok(()));
    let above = Counts { points: LIMITS.points + 1, ..LIMITS };
    let record = pack(&sized(&above, 7));
    assert_eq!(check(&record), Err(Refusal::SizesDisagree));
}

/// The defects that lie furthest behind in the largest record are still found.
#[test]
fn last_rows_count_at_the_limits() {
    let refused_after = |change: fn(&mut Campaign), refusal| {
        let mut campaign = at_limits();
        change(&mut campaign);
        assert_eq!(check(&pack(&campaign)), Err(refusal));
    };
    refused_after(|c| c.countries[1_999].tag = c.countries[0].tag, Refusal::Repeated);
    refused_after(|c| c.provinces[7_999].id = c.provinces[0].id, Refusal::Repeated);
    refused_after(|c| c.provinces[7_999].id = 8_001, Refusal::Repeated);
    refused_after(|c| c.wars[4_999].events[19].kind = 5, Refusal::UndefinedFlag);
    refused_after(|c| c.ledger[1_999].points[499].year = 10_000, Refusal::LedgerYear);
}
