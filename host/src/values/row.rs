//! Words that are no row.

use std::error::Error;
use std::fmt;

use super::{NotADate, NotATag};

/// Words that are no row of their kind: a tag, a date or a number among them is none.
///
/// ```
/// use chronicle::{NotARow, TagData};
///
/// assert_eq!(TagData::try_from([0, 0]), Err(NotARow));
/// assert_eq!(NotARow.to_string(), "no row: a tag, a date or a number in it is none");
/// ```
#[derive(Clone, Copy, Debug, Default, PartialEq, Eq, PartialOrd, Ord, Hash)]
pub struct NotARow;

impl fmt::Display for NotARow {
    fn fmt(&self, f: &mut fmt::Formatter<'_>) -> fmt::Result {
        f.pad("no row: a tag, a date or a number in it is none")
    }
}

impl Error for NotARow {}

impl From<NotATag> for NotARow {
    fn from(_: NotATag) -> NotARow {
        NotARow
    }
}

impl From<NotADate> for NotARow {
    fn from(_: NotADate) -> NotARow {
        NotARow
    }
}
