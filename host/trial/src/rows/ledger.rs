//! Ledger rows.

use super::{tag_of_word, tag_word};
use crate::pack::Tag;

/// A nation's value in a year, under the tag it wore.
#[derive(Clone, Copy, Debug, PartialEq, Eq)]
#[allow(missing_docs)]
pub struct LedgerRow {
    pub tag: Tag,
    pub year: u16,
    pub value: i32,
}

impl LedgerRow {
    /// Tag, year, value.
    ///
    /// ```
    /// use chronicle_trial::rows::LedgerRow;
    ///
    /// let row = LedgerRow { tag: *b"---", year: 1450, value: -1 };
    /// assert_eq!(row.words(), [2960685, 1450, u32::MAX]);
    /// ```
    pub fn words(&self) -> [u32; 3] {
        [tag_word(self.tag), u32::from(self.year), self.value as u32]
    }

    /// The row that these words are.
    ///
    /// # Panics
    ///
    /// If the second word is too large for a year.
    ///
    /// ```
    /// use chronicle_trial::rows::LedgerRow;
    ///
    /// let row = LedgerRow { tag: *b"---", year: 9999, value: i32::MIN };
    /// assert_eq!(LedgerRow::told(row.words()), row);
    /// ```
    pub fn told([tag, year, value]: [u32; 3]) -> LedgerRow {
        let year = u16::try_from(year).expect("a year takes 16 bits");
        LedgerRow { tag: tag_of_word(tag), year, value: value as i32 }
    }
}

/// All rows of a ledger, one behind the other.
///
/// ```
/// use chronicle_trial::rows::{ledger_words, LedgerRow};
///
/// let row = LedgerRow { tag: *b"---", year: 1450, value: 2 };
/// assert_eq!(ledger_words(&[row, row]).len(), 6);
/// ```
pub fn ledger_words(rows: &[LedgerRow]) -> Vec<u32> {
    rows.iter().flat_map(LedgerRow::words).collect()
}
