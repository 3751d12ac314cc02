//! Nations, and what befell them.

use std::fmt;

use super::{CountryTag, Eu4Date, NotARow};
use crate::rows::{ENTRY_WORDS, KIND_ANNEXED, KIND_APPEARED, KIND_SWITCH};

/// What befell a nation.
#[derive(Clone, Copy, Debug, PartialEq, Eq, PartialOrd, Ord, Hash)]
pub enum EntryKind {
    /// It took this tag.
    TagSwitch(CountryTag),
    /// It held nothing and then something.
    Appeared,
    /// It lost the last that it held.
    Annexed,
}

impl fmt::Display for EntryKind {
    fn fmt(&self, f: &mut fmt::Formatter<'_>) -> fmt::Result {
        match self {
            EntryKind::TagSwitch(target) => f.pad(&format!("becomes {target}")),
            EntryKind::Appeared => f.pad("appears"),
            EntryKind::Annexed => f.pad("is annexed"),
        }
    }
}

/// What befell a nation, and when.
///
/// ```
/// use chronicle::{Entry, NotARow, Record};
///
/// let record = Record::open(std::fs::read("../samples/worked.atl")?)?;
/// let entries: Vec<Entry> = record.chronicle()?.entries().collect();
/// assert_eq!(entries[2].to_string(), "1448-06-01 becomes GBR");
/// let row: [u32; 3] = entries[2].into();
/// assert_eq!((row, Entry::try_from(row)), ([14480601, 0, 0x47_42_52], Ok(entries[2])));
/// assert_eq!(Entry::try_from([14480601, 3, 0]), Err(NotARow));
/// # Ok::<(), Box<dyn std::error::Error>>(())
/// ```
#[derive(Clone, Copy, Debug, PartialEq, Eq, PartialOrd, Ord, Hash)]
pub struct Entry {
    /// On this day
    pub date: Eu4Date,
    /// this befell it.
    pub kind: EntryKind,
}

impl Entry {
    pub(crate) fn written(&[date, kind, target]: &[u32; ENTRY_WORDS]) -> Entry {
        let kind = match kind {
            KIND_SWITCH => EntryKind::TagSwitch(CountryTag::written(target)),
            KIND_APPEARED => EntryKind::Appeared,
            _ => EntryKind::Annexed,
        };
        Entry { date: Eu4Date::written(date), kind }
    }

    /// The day and the tag of a switch; none of another entry.
    ///
    /// ```
    /// use chronicle::{CountryTag, Entry, NotARow};
    ///
    /// let entry = Entry::try_from([14480601, 0, 0x47_42_52])?;
    /// assert_eq!(entry.as_tag_switch(), Some((entry.date, CountryTag::new(*b"GBR"))));
    /// assert_eq!(Entry::try_from([14480601, 1, 0])?.as_tag_switch(), None);
    /// # Ok::<(), NotARow>(())
    /// ```
    pub fn as_tag_switch(&self) -> Option<(Eu4Date, CountryTag)> {
        match self.kind {
            EntryKind::TagSwitch(target) => Some((self.date, target)),
            EntryKind::Appeared | EntryKind::Annexed => None,
        }
    }
}

impl TryFrom<[u32; ENTRY_WORDS]> for Entry {
    type Error = NotARow;

    fn try_from([date, kind, target]: [u32; ENTRY_WORDS]) -> Result<Entry, NotARow> {
        let kind = match (kind, target) {
            (KIND_SWITCH, target) => EntryKind::TagSwitch(target.try_into()?),
            (KIND_APPEARED, 0) => EntryKind::Appeared,
            (KIND_ANNEXED, 0) => EntryKind::Annexed,
            _ => return Err(NotARow),
        };
        Ok(Entry { date: date.try_into()?, kind })
    }
}

impl From<Entry> for [u32; ENTRY_WORDS] {
    fn from(Entry { date, kind }: Entry) -> [u32; ENTRY_WORDS] {
        let (kind, target) = match kind {
            EntryKind::TagSwitch(target) => (KIND_SWITCH, target.into()),
            EntryKind::Appeared => (KIND_APPEARED, 0),
            EntryKind::Annexed => (KIND_ANNEXED, 0),
        };
        [date.into(), kind, target]
    }
}

impl fmt::Display for Entry {
    fn fmt(&self, f: &mut fmt::Formatter<'_>) -> fmt::Result {
        f.pad(&format!("{} {}", self.date, self.kind))
    }
}

/// A nation that held land, with what befell it in the order of days.
#[derive(Clone, Debug, PartialEq, Eq, PartialOrd, Ord, Hash)]
pub struct Nation {
    /// Its place in the list, from 0; lists are ordered by the initial tags.
    pub number: usize,
    /// The tag that it began with. In a run TYR → IRE → GBR, this is TYR.
    pub initial: CountryTag,
    /// The tag that it came to last.
    pub latest: CountryTag,
    /// The tag that its country is stored under in the record.
    pub stored: CountryTag,
    /// What befell it.
    pub entries: Vec<Entry>,
}

impl Nation {
    /// The tag that it wears on a day: that of its last switch up to then, else its initial one.
    ///
    /// ```
    /// use chronicle::{Record, Refusal};
    ///
    /// let bytes = std::fs::read("../samples/isles.atl").unwrap();
    /// let record = Record::open(&bytes)?;
    /// let ireland = record.chronicle()?.nations().last().unwrap();
    /// assert_eq!(ireland.worn_on("1460-02-28".parse()?), "TYR");
    /// assert_eq!(ireland.worn_on("1460-03-01".parse()?), "ULS");
    /// # Ok::<(), Refusal>(())
    /// ```
    pub fn worn_on(&self, day: Eu4Date) -> CountryTag {
        let entries = self.entries.iter().filter(|entry| entry.date <= day);
        let mut targets = entries.filter_map(|entry| Some(entry.as_tag_switch()?.1));
        targets.next_back().unwrap_or(self.initial)
    }
}

impl fmt::Display for Nation {
    fn fmt(&self, f: &mut fmt::Formatter<'_>) -> fmt::Result {
        let Nation { initial, latest, stored, .. } = self;
        f.pad(&format!("{initial}, now {latest}, stored under {stored}"))
    }
}
