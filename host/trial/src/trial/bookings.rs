//! `war_participants`.

use chronicle::raw::Chronicle;
use chronicle::Refusal;

use super::same;
use crate::guard::Lent;
use crate::rows::{booking_words, entry_words, nation_words, Booking, Nation};

/// Room longer than the answer, exactly as long, one cell short, and none; and ill-shaped words,
/// whatever the room.
pub fn accepted(record: &[u8], nations: &[Nation], bookings: &[Booking]) -> Result<(), String> {
    let [nations, entries] = [nation_words(nations), entry_words(nations)];
    let rows = Chronicle { nations: &nations, entries: &entries };
    let words = booking_words(bookings);
    booked(rows, record, words.len() + 5, Ok(&words))?;
    booked(rows, record, words.len(), Ok(&words))?;
    if !words.is_empty() {
        booked(rows, record, words.len() - 1, Err(Refusal::NoRoom(None)))?;
        booked(rows, record, 0, Err(Refusal::NoRoom(None)))?;
    }
    for torn in super::torn(rows) {
        booked(torn, record, words.len(), Err(Refusal::NotWellShaped))?;
        booked(torn, record, 0, Err(Refusal::NotWellShaped))?;
    }
    Ok(())
}

/// The record's own number comes before 11 and 10, whatever the chronicle and the room are.
pub fn refused(record: &[u8], refusal: Refusal) -> Result<(), String> {
    let empty = Chronicle { nations: &[], entries: &[] };
    let torn = Chronicle { nations: &[7], entries: &[] };
    for length in [0, 4, 60] {
        booked(empty, record, length, Err(refusal))?;
        booked(torn, record, length, Err(refusal))?;
    }
    Ok(())
}

/// Asks for the bookings of a record with so many cells lent. Expected are a refusal, or the words
/// that are written first into the lent cells; no other cell may change.
///
/// ```
/// use chronicle::Refusal;
/// use chronicle::raw::Chronicle;
/// use chronicle_trial::{sample, trial::booked};
///
/// let rows = Chronicle { nations: &[], entries: &[] };
/// assert_eq!(booked(rows, sample::WORKED, 4, Ok(&[])), Ok(()));
/// assert!(booked(rows, sample::WORKED, 4, Err(Refusal::NoRoom(None))).is_err());
/// ```
pub fn booked(
    rows: Chronicle<'_>,
    record: &[u8],
    length: usize,
    expected: Result<&[u32], Refusal>,
) -> Result<(), String> {
    let what = format!("war_participants, lent {length} cells,");
    let mut lent = Lent::new(length);
    let found = rows.war_participants(record, lent.slice());
    same(&what, &found, &expected.map(|words| words.len() / 3))?;
    let written = expected.unwrap_or(&[]);
    lent.holds(written).map_err(|error| format!("{what} answers well, but {error}"))
}
