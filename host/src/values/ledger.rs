//! Yearly values, and of what.

use std::error::Error;
use std::fmt;
use std::str::FromStr;

use super::{CountryTag, NotARow};
use crate::rows::LEDGER_WORDS;

/// What the yearly values of a record are. The record does not say it; who packed it knows.
///
/// ```
/// use chronicle::{LedgerKind, NotALedger};
///
/// assert_eq!("nation size".parse(), Ok(LedgerKind::NationSize));
/// assert_eq!(format!("{:>9}", LedgerKind::Score), "    score");
/// assert!(LedgerKind::ALL.into_iter().all(|kind| kind.as_str().parse() == Ok(kind)));
/// assert_eq!("gold".parse::<LedgerKind>(), Err(NotALedger));
/// ```
#[derive(Clone, Copy, Debug, PartialEq, Eq, PartialOrd, Ord, Hash)]
#[non_exhaustive]
pub enum LedgerKind {
    /// The score.
    Score,
    /// How much land it has.
    NationSize,
    /// The income.
    Income,
    /// The inflation.
    Inflation,
}

impl LedgerKind {
    /// All of them.
    pub const ALL: [LedgerKind; 4] =
        [LedgerKind::Score, LedgerKind::NationSize, LedgerKind::Income, LedgerKind::Inflation];

    /// Its name.
    ///
    /// ```
    /// assert_eq!(chronicle::LedgerKind::NationSize.as_str(), "nation size");
    /// ```
    pub fn as_str(&self) -> &'static str {
        match self {
            LedgerKind::Score => "score",
            LedgerKind::NationSize => "nation size",
            LedgerKind::Income => "income",
            LedgerKind::Inflation => "inflation",
        }
    }
}

impl AsRef<str> for LedgerKind {
    fn as_ref(&self) -> &str {
        self.as_str()
    }
}

impl fmt::Display for LedgerKind {
    fn fmt(&self, f: &mut fmt::Formatter<'_>) -> fmt::Result {
        f.pad(self.as_str())
    }
}

/// A text that names no ledger.
#[derive(Clone, Copy, Debug, Default, PartialEq, Eq, PartialOrd, Ord, Hash)]
pub struct NotALedger;

impl fmt::Display for NotALedger {
    fn fmt(&self, f: &mut fmt::Formatter<'_>) -> fmt::Result {
        f.pad("no ledger: there are score, nation size, income and inflation")
    }
}

impl Error for NotALedger {}

impl FromStr for LedgerKind {
    type Err = NotALedger;

    fn from_str(text: &str) -> Result<LedgerKind, NotALedger> {
        LedgerKind::ALL.into_iter().find(|kind| kind.as_str() == text).ok_or(NotALedger)
    }
}

/// A nation's value in a year, under the tag that it wore.
///
/// ```
/// use chronicle::{LedgerPoint, NotARow};
///
/// let point = LedgerPoint::try_from([0x45_4e_47, 1445, u32::MAX])?;
/// assert_eq!((point.value, point.to_string()), (-1, "ENG 1445: -1".into()));
/// assert_eq!(<[u32; 3]>::from(point), [0x45_4e_47, 1445, u32::MAX]);
/// assert_eq!(LedgerPoint::try_from([0x45_4e_47, 10_000, 0]), Err(NotARow));
/// # Ok::<(), NotARow>(())
/// ```
#[derive(Clone, Copy, Debug, PartialEq, Eq, PartialOrd, Ord, Hash)]
pub struct LedgerPoint {
    /// The tag that it wore.
    pub tag: CountryTag,
    /// The year.
    pub year: u16,
    /// The value, 0 where the ledger has none.
    pub value: i32,
}

impl LedgerPoint {
    pub(crate) fn written(&[tag, year, value]: &[u32; LEDGER_WORDS]) -> LedgerPoint {
        LedgerPoint { tag: CountryTag::written(tag), year: year as u16, value: value as i32 }
    }
}

impl TryFrom<[u32; LEDGER_WORDS]> for LedgerPoint {
    type Error = NotARow;

    fn try_from([tag, year, value]: [u32; LEDGER_WORDS]) -> Result<LedgerPoint, NotARow> {
        let year = u16::try_from(year).ok().filter(|&year| year <= 9_999).ok_or(NotARow)?;
        Ok(LedgerPoint { tag: tag.try_into()?, year, value: value as i32 })
    }
}

impl From<LedgerPoint> for [u32; LEDGER_WORDS] {
    fn from(LedgerPoint { tag, year, value }: LedgerPoint) -> [u32; LEDGER_WORDS] {
        [tag.into(), year.into(), value as u32]
    }
}

impl fmt::Display for LedgerPoint {
    fn fmt(&self, f: &mut fmt::Formatter<'_>) -> fmt::Result {
        f.pad(&format!("{} {}: {}", self.tag, self.year, self.value))
    }
}
