//! `province_owners` and `events_on`.

use chronicle::raw::{events_on, province_owners};
use chronicle::Refusal;

use super::same;
use crate::guard::Lent;
use crate::pack::Date;
use crate::rows::{change_words, Change, Run};

/// No calendar has these: 0, the last day of February in a leap year, month 13, year 10000.
const NO_DATES: [Date; 4] = [0, 14440229, 14441301, 100000101];

/// All changes in slices of several lengths, the run of each date, and dates that are none.
pub fn accepted(record: &[u8], changes: &[Change], runs: &[(Date, Run)]) -> Result<(), String> {
    let words = change_words(changes);
    for length in lengths(words.len()) {
        owners(record, length, room_for(changes.len(), &words, length), &words)?;
    }
    for (number, &(date, run)) in runs.iter().enumerate() {
        // One slice for each question is enough; over all questions every length is tried.
        let length = [2, 3, 0, 2, 1, 8][number % 6];
        run_on(record, date, length, room_for((), &run.words(), length), &run.words())?;
    }
    for date in NO_DATES {
        run_on(record, date, 2, Err(Refusal::BadQuestion), &[])?;
        run_on(record, date, 0, Err(Refusal::BadQuestion), &[])?;
    }
    Ok(())
}

/// A refused record is refused whatever is lent, and before a bad date.
pub fn refused(record: &[u8], refusal: Refusal) -> Result<(), String> {
    for length in [0, 1, 40] {
        owners(record, length, Err(refusal), &[])?;
        run_on(record, 14441111, length, Err(refusal), &[])?;
        run_on(record, NO_DATES[1], length, Err(refusal), &[])?;
    }
    Ok(())
}

/// Longer than the answer, exactly as long, one cell short, and empty.
fn lengths(need: usize) -> Vec<usize> {
    let mut lengths = vec![need + 5, need, need.saturating_sub(1), 0];
    lengths.dedup();
    lengths
}

fn room_for<T>(answer: T, words: &[u32], length: usize) -> Result<T, Refusal> {
    if length < words.len() {
        Err(Refusal::NoRoom(None))
    } else {
        Ok(answer)
    }
}

fn owners(
    record: &[u8],
    length: usize,
    expected: Result<usize, Refusal>,
    words: &[u32],
) -> Result<(), String> {
    let what = format!("province_owners, lent {length} cells,");
    let mut lent = Lent::new(length);
    same(&what, &province_owners(record, lent.slice()), &expected)?;
    let written = if expected.is_ok() { words } else { &[] };
    lent.holds(written).map_err(|error| format!("{what} answers well, but {error}"))
}

fn run_on(
    record: &[u8],
    date: Date,
    length: usize,
    expected: Result<(), Refusal>,
    words: &[u32],
) -> Result<(), String> {
    let what = format!("events_on {date}, lent {length} cells,");
    let mut lent = Lent::new(length);
    same(&what, &events_on(record, date, lent.slice()), &expected)?;
    let written = if expected.is_ok() { words } else { &[] };
    lent.holds(written).map_err(|error| format!("{what} answers well, but {error}"))
}
