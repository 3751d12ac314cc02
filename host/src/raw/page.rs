//! The page of a record for a selection.

use super::{c, counted};
use crate::Refusal;

/// No page is longer: its first line, and a line for each of 16,384 tags.
pub const LONGEST_PAGE: usize = FIRST_LINE + 16_384 * LINE;

/// `selected 16384` and a line feed.
const FIRST_LINE: usize = 15;

/// Three tags, four digits and `annexed`, with what stands behind each.
const LINE: usize = 25;

/// How many bytes are enough for every page of a selection with so many bytes.
///
/// ```
/// use chronicle::raw::{page_room, LONGEST_PAGE};
///
/// assert_eq!((page_room(0), page_room(8)), (15, 65));
/// assert_eq!(page_room(usize::MAX), LONGEST_PAGE);
/// ```
pub fn page_room(selection: usize) -> usize {
    LONGEST_PAGE.min(FIRST_LINE + LINE * (selection / 4).min(16_384))
}

/// Writes the page of a record for a selection (how many tags were read, then a line for each) and
/// gives the number of its bytes. Needs 1.8 MiB of stack.
///
/// A selection is tags, each with a line feed behind it. More than 65,536 bytes of either, more than
/// 4,000 changes, more than 5,000 entries and fewer bytes than the page has are
/// [`Refusal::NoRoom`].
///
/// # Panics
///
/// If the library answers a number that is neither a count nor a refusal's.
///
/// ```
/// use chronicle::{raw::write_page, Refusal};
///
/// let record = std::fs::read("../samples/worked.atl").unwrap();
/// let mut out = [b'.'; 33];
/// assert_eq!(write_page(&record, b"FRA\n", &mut out), Ok(32));
/// assert_eq!(&out, b"selected 1\nFRA FRA FRA 0 living\n.");
/// assert_eq!(write_page(&record, b"FRA\n", &mut out[..31]), Err(Refusal::NoRoom(None)));
/// assert_eq!(write_page(&record, b"FRA", &mut out), Err(Refusal::BadQuestion));
/// ```
pub fn write_page(record: &[u8], selection: &[u8], out: &mut [u8]) -> Result<usize, Refusal> {
    // SAFETY: each pointer comes with the length of the live slice it belongs to; the function
    // reads two of them, writes within the third, and keeps none.
    let answer = unsafe {
        c::page(
            record.as_ptr(),
            record.len(),
            selection.as_ptr(),
            selection.len(),
            out.as_mut_ptr(),
            out.len(),
        )
    };
    counted("page", answer)
}
