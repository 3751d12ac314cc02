//! Why a call was refused, by its number (Rules 2.2) and in plain words.

mod shortage;

pub use shortage::{Lacking, Shortage};

use std::error::Error;
use std::fmt;

use crate::values::{NotADate, NotATag};

/// Why a call was refused, by its number (Rules 2.2): 1 to 9 are the record's, 10 and 11 those of what was
/// lent, 12 and 13 the question's.
#[derive(Clone, Copy, Debug, PartialEq, Eq, PartialOrd, Ord, Hash)]
#[non_exhaustive]
pub enum Refusal {
    /// 1: too short for a head, or without `ATL` at its front.
    NotARecord,
    /// 2: written by a packer of another version.
    UnknownVersion,
    /// 3: more rows than may be, or rows, head and length that do not fit together.
    SizesDisagree,
    /// 4: a tag with a byte that tags do not use.
    BadTag,
    /// 5: a day that no calendar without leap days has.
    BadDate,
    /// 6: a flag or a kind of war event that nothing defines.
    UndefinedFlag,
    /// 7: two countries of one tag, two provinces of one id, or an id that is too large.
    Repeated,
    /// 8: a campaign that ends before it starts.
    DatesReversed,
    /// 9: a year of the ledger with five digits.
    LedgerYear,
    /// 10: no room for the answer, or more than a page holds; what was short, where that is known.
    NoRoom(Option<Shortage>),
    /// 11: lent rows that no chronicle or history has.
    NotWellShaped,
    /// 12: a question whose tag or date is none.
    BadQuestion,
    /// 13: a question about a nation behind the last one.
    NoSuchNation,
}

impl Refusal {
    /// Every refusal, in the order of the numbers.
    pub const ALL: [Refusal; 13] = [
        Refusal::NotARecord,
        Refusal::UnknownVersion,
        Refusal::SizesDisagree,
        Refusal::BadTag,
        Refusal::BadDate,
        Refusal::UndefinedFlag,
        Refusal::Repeated,
        Refusal::DatesReversed,
        Refusal::LedgerYear,
        Refusal::NoRoom(None),
        Refusal::NotWellShaped,
        Refusal::BadQuestion,
        Refusal::NoSuchNation,
    ];

    /// Those that are about the record: numbers 1 to 9.
    ///
    /// ```
    /// use chronicle::Refusal;
    ///
    /// assert!(Refusal::BadTag.is_of_record());
    /// assert!(!Refusal::NoRoom(None).is_of_record());
    /// ```
    pub fn is_of_record(self) -> bool {
        self.number() <= Refusal::LedgerYear.number()
    }

    /// The refusal's number (Rules 2.2).
    ///
    /// ```
    /// use chronicle::Refusal;
    ///
    /// assert_eq!(Refusal::BadTag.number(), 4);
    /// assert_eq!(Refusal::NoRoom(None).number(), 10);
    /// ```
    pub fn number(self) -> u8 {
        match self {
            Refusal::NotARecord => 1,
            Refusal::UnknownVersion => 2,
            Refusal::SizesDisagree => 3,
            Refusal::BadTag => 4,
            Refusal::BadDate => 5,
            Refusal::UndefinedFlag => 6,
            Refusal::Repeated => 7,
            Refusal::DatesReversed => 8,
            Refusal::LedgerYear => 9,
            Refusal::NoRoom(_) => 10,
            Refusal::NotWellShaped => 11,
            Refusal::BadQuestion => 12,
            Refusal::NoSuchNation => 13,
        }
    }

    /// The refusal that has this number, if one does.
    ///
    /// ```
    /// use chronicle::Refusal;
    ///
    /// assert_eq!(Refusal::from_number(8), Some(Refusal::DatesReversed));
    /// assert_eq!(Refusal::from_number(0), None);
    /// ```
    pub fn from_number(number: u8) -> Option<Refusal> {
        Refusal::ALL.into_iter().find(|refusal| refusal.number() == number)
    }

    /// What is wrong, in plain words.
    ///
    /// ```
    /// use chronicle::Refusal;
    ///
    /// assert_eq!(Refusal::DatesReversed.words(), "the campaign ends before it starts");
    /// ```
    pub fn words(self) -> &'static str {
        match self {
            Refusal::NotARecord => "these bytes do not begin as a packed campaign does",
            Refusal::UnknownVersion => "the record was packed by another version",
            Refusal::SizesDisagree => {
                "the record holds too many rows, or they do not add up to what its head says"
            }
            Refusal::BadTag => "a tag in the record uses a byte that tags do not have",
            Refusal::BadDate => {
                "a date in the record is no day of the calendar (29 February is none)"
            }
            Refusal::UndefinedFlag => "a flag or a kind of war event in the record is unknown",
            Refusal::Repeated => {
                "two countries share a tag, two provinces an id, or an id is too large"
            }
            Refusal::DatesReversed => "the campaign ends before it starts",
            Refusal::LedgerYear => "a year of the ledger is past 9999",
            Refusal::NoRoom(_) => "the answer has no room",
            Refusal::NotWellShaped => "the lent rows are no chronicle's, or no history's",
            Refusal::BadQuestion => "the question names no tag or no date",
            Refusal::NoSuchNation => "the chronicle lists no such nation",
        }
    }

    /// What to do about it.
    ///
    /// ```
    /// use chronicle::Refusal;
    ///
    /// assert_eq!(Refusal::UnknownVersion.advice(), "pack the campaign again, as version 1");
    /// ```
    pub fn advice(self) -> &'static str {
        match self {
            Refusal::NotARecord => "give a whole record, of 44 bytes or more, that opens with ATL",
            Refusal::UnknownVersion => "pack the campaign again, as version 1",
            Refusal::SizesDisagree => {
                "look for a file that was cut off or added to, else pack it again within the limits"
            }
            Refusal::BadTag => "pack it again with tags of ASCII letters, digits and `-` alone",
            Refusal::BadDate => "pack it again with days of the years 1 to 9999, without leap days",
            Refusal::UndefinedFlag => {
                "pack it again with the flag bits and the kinds 0 to 4 that the format defines"
            }
            Refusal::Repeated => {
                "pack it again with each country once, and each province once, numbered from 0 to P"
            }
            Refusal::DatesReversed => "pack it again with a current date not before the start date",
            Refusal::LedgerYear => "pack it again with ledger years up to 9999",
            Refusal::NoRoom(shortage) => shortage::advice(shortage),
            Refusal::NotWellShaped => "lend the rows as they were written, whole and in order",
            Refusal::BadQuestion => {
                "ask with three ASCII letters, digits or `-` as a tag, and a day without leap days"
            }
            Refusal::NoSuchNation => {
                "ask for one that is listed; by number, from 0 and below their count"
            }
        }
    }
}

impl fmt::Display for Refusal {
    fn fmt(&self, f: &mut fmt::Formatter<'_>) -> fmt::Result {
        write!(f, "refused {}: {}", self.number(), self.words())?;
        if let Refusal::NoRoom(Some(shortage)) = self {
            write!(f, " ({shortage})")?;
        }
        write!(f, "; {}", self.advice())
    }
}

impl Error for Refusal {}

/// A text that is no tag, where a call refuses a question with such a tag.
impl From<NotATag> for Refusal {
    fn from(_: NotATag) -> Refusal {
        Refusal::BadQuestion
    }
}

/// A text that is no day, where a call refuses a question with such a day.
impl From<NotADate> for Refusal {
    fn from(_: NotADate) -> Refusal {
        Refusal::BadQuestion
    }
}

#[cfg(test)]
mod tests {
    use super::{Lacking, Refusal, Shortage};

    #[test]
    fn numbers_run_from_one_without_gap() {
        for (place, refusal) in Refusal::ALL.into_iter().enumerate() {
            assert_eq!(usize::from(refusal.number()), place + 1);
            assert_eq!(Refusal::from_number(refusal.number()), Some(refusal));
        }
        assert_eq!(Refusal::from_number(14), None);
    }

    #[test]
    fn words_with_number_and_what_to_do() {
        let told = "refused 8: the campaign ends before it starts; \
                    pack it again with a current date not before the start date";
        assert_eq!(Refusal::DatesReversed.to_string(), told);
        let shortage = Shortage { lacking: Lacking::PageChanges, room: 4_000, needed: 4_321 };
        let told = "refused 10: the answer has no room (a page holds 4000 owner changes, and this \
                    record has 4321); ask for the nations instead, which have no such limit";
        assert_eq!(Refusal::NoRoom(Some(shortage)).to_string(), told);
    }
}
