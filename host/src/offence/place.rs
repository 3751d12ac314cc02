//! The row that an offence stands in.

use std::fmt;
use std::ops::Range;

use crate::layout;

/// A part of a record.
#[derive(Clone, Copy, Debug, PartialEq, Eq, PartialOrd, Ord, Hash)]
#[non_exhaustive]
pub enum Part {
    /// The head.
    Head,
    /// A country row.
    Country,
    /// A previous tag of a country.
    PreviousTag,
    /// A switch of a country.
    Switch,
    /// A province row.
    Province,
    /// An owner event of a province.
    OwnerEvent,
    /// A war row.
    War,
    /// An event of a war.
    WarEvent,
    /// A row of a ledger's name.
    LedgerName,
    /// A point of a ledger.
    LedgerPoint,
    /// A string.
    String,
    /// Where the record ends, or should.
    End,
}

impl Part {
    /// Those with rows of one width, in file order, the head first.
    pub(super) const ROWS: [Part; 10] = [
        Part::Head,
        Part::Country,
        Part::PreviousTag,
        Part::Switch,
        Part::Province,
        Part::OwnerEvent,
        Part::War,
        Part::WarEvent,
        Part::LedgerName,
        Part::LedgerPoint,
    ];

    /// What a row of it is called.
    ///
    /// ```
    /// assert_eq!(chronicle::Part::OwnerEvent.name(), "owner event");
    /// ```
    pub fn name(self) -> &'static str {
        match self {
            Part::Head => "head",
            Part::Country => "country",
            Part::PreviousTag => "previous tag",
            Part::Switch => "switch",
            Part::Province => "province",
            Part::OwnerEvent => "owner event",
            Part::War => "war",
            Part::WarEvent => "war event",
            Part::LedgerName => "ledger name",
            Part::LedgerPoint => "ledger point",
            Part::String => "string",
            Part::End => "end",
        }
    }

    /// The bytes of a row; strings and the end have no width of their own.
    pub(super) fn width(self) -> usize {
        match self {
            Part::Head => layout::HEAD,
            Part::Country => layout::COUNTRY,
            Part::PreviousTag => layout::PREVIOUS_TAG,
            Part::Switch => layout::SWITCH,
            Part::Province => layout::PROVINCE,
            Part::OwnerEvent => layout::OWNER_EVENT,
            Part::War => layout::WAR,
            Part::WarEvent => layout::WAR_EVENT,
            Part::LedgerName => layout::LEDGER_NAME,
            Part::LedgerPoint => layout::POINT,
            Part::String | Part::End => 1,
        }
    }

    /// Whose rows own its rows, and where in such a row their number stands.
    pub(super) fn owner(self) -> Option<(Part, usize)> {
        match self {
            Part::PreviousTag => Some((Part::Country, 8)),
            Part::Switch => Some((Part::Country, 10)),
            Part::OwnerEvent => Some((Part::Province, 5)),
            Part::WarEvent => Some((Part::War, 0)),
            Part::LedgerPoint => Some((Part::LedgerName, 3)),
            _ => None,
        }
    }
}

/// A row of a record, named as the answers name it: a province by its id, a country by its tag.
///
/// It is written `province 8 (row 7)`, `country GBR (row 1)`, `war 3`, `ledger of FRA (row 2)`, and a row that
/// one of these owns `owner event (row 5) of province 8 (row 7)`. Rows are numbered from 0 in their section.
#[derive(Clone, Debug, PartialEq, Eq, Hash)]
pub struct Place {
    /// What kind of row it is.
    pub part: Part,
    /// Its number among the rows of its kind, from 0.
    pub row: usize,
    /// The tag or the id that it is known by, as text; of a row that has none, nothing.
    pub called: String,
    /// Where its bytes lie, as far as the record has them.
    pub bytes: Range<usize>,
    /// The row that owns it.
    pub owner: Option<Box<Place>>,
}

impl Place {
    /// The head of a record that has so many bytes of it.
    pub(super) fn head(bytes: usize) -> Place {
        Place::unnamed(Part::Head, 0, 0..bytes)
    }

    /// A row without a name or an owner.
    pub(super) fn unnamed(part: Part, row: usize, bytes: Range<usize>) -> Place {
        Place { part, row, called: String::new(), bytes, owner: None }
    }
}

impl fmt::Display for Place {
    fn fmt(&self, f: &mut fmt::Formatter<'_>) -> fmt::Result {
        let Place { part, row, called, owner, .. } = self;
        match part {
            Part::Head => f.write_str("the head"),
            Part::End => f.write_str("the end of the record"),
            Part::War | Part::String => write!(f, "{} {row}", part.name()),
            Part::Country | Part::Province => write!(f, "{} {called} (row {row})", part.name()),
            Part::LedgerName => write!(f, "ledger of {called} (row {row})"),
            _ => {
                write!(f, "{} (row {row})", part.name())?;
                let Some(owner) = owner else {
                    return Ok(());
                };
                let article = if owner.part == Part::LedgerName { "the " } else { "" };
                write!(f, " of {article}{owner}")
            }
        }
    }
}
