//! `page`.

use chronicle::raw::write_page;
use chronicle::Refusal;

use super::same;
use crate::guard::Lent;
use crate::told::page;

/// Room longer than the page, exactly as long, one byte short, and none; and the wrapper's own room.
pub fn answered(
    record: &[u8],
    selection: &[u8],
    expected: &Result<Vec<u8>, Refusal>,
) -> Result<(), String> {
    same("page, in room of its own,", &page(record, selection), expected)?;
    let expected = expected.as_deref().map_err(|&refusal| refusal);
    let length = expected.map_or(100, <[u8]>::len);
    paged(record, selection, length + 3, expected)?;
    paged(record, selection, length, expected)?;
    let short = expected.and(Err(Refusal::NoRoom(None)));
    paged(record, selection, length - 1, short)?;
    paged(record, selection, 0, short)
}

/// The record's own number comes before 12 and 10, but not before 10 for too many bytes.
pub fn refused(record: &[u8], refusal: Refusal) -> Result<(), String> {
    let refusal = if record.len() > 65_536 { Refusal::NoRoom(None) } else { refusal };
    for selection in [&b""[..], b"GBR\n", b"GBR"] {
        paged(record, selection, 100, Err(refusal))?;
        paged(record, selection, 0, Err(refusal))?;
    }
    paged(record, &[b'\n'; 65_537], 100, Err(Refusal::NoRoom(None)))
}

/// Asks for the page of a record with so many bytes lent. Expected are a refusal, or the bytes that
/// are written first into the lent ones; no other byte may change.
///
/// ```
/// use chronicle::Refusal;
/// use chronicle_trial::{sample, trial::paged};
///
/// assert_eq!(paged(sample::WORKED, b"", 20, Ok(b"selected 0\n")), Ok(()));
/// assert!(paged(sample::WORKED, b"", 20, Err(Refusal::NoRoom(None))).is_err());
/// ```
pub fn paged(
    record: &[u8],
    selection: &[u8],
    length: usize,
    expected: Result<&[u8], Refusal>,
) -> Result<(), String> {
    let what = format!("page, lent {length} bytes,");
    let mut lent = Lent::<u8>::new(length);
    let found = write_page(record, selection, lent.slice());
    same(&what, &found, &expected.map(<[u8]>::len))?;
    lent.holds(expected.unwrap_or(&[])).map_err(|error| format!("{what} answers well, but {error}"))
}
