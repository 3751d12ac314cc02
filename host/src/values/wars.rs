//! Who entered which war.

use std::fmt;

use super::{CountryTag, Eu4Date};
use crate::rows::BOOKING_WORDS;

/// On which side of a war.
#[derive(Clone, Copy, Debug, PartialEq, Eq, PartialOrd, Ord, Hash)]
pub enum Side {
    /// It attacks.
    Attacker,
    /// It defends.
    Defender,
}

impl fmt::Display for Side {
    fn fmt(&self, f: &mut fmt::Formatter<'_>) -> fmt::Result {
        f.pad(match self {
            Side::Attacker => "attacker",
            Side::Defender => "defender",
        })
    }
}

/// Who entered a war, when, and on which side.
///
/// ```
/// use chronicle::{Record, Side};
///
/// let record = Record::open(std::fs::read("../samples/isles.atl")?)?;
/// let tyrone = record.chronicle()?.war_participants()?[4];
/// assert_eq!((tyrone.war, tyrone.side), (1, Side::Defender));
/// assert_eq!(tyrone.to_string(), "1460-08-01 war 1: TYR as defender, stored under IRE");
/// # Ok::<(), Box<dyn std::error::Error>>(())
/// ```
#[derive(Clone, Copy, Debug, PartialEq, Eq, PartialOrd, Ord, Hash)]
pub struct WarParticipant {
    /// The number of the war, from 0.
    pub war: usize,
    /// The day on which it entered.
    pub date: Eu4Date,
    /// The side that it entered on.
    pub side: Side,
    /// The tag that the war has it under.
    pub tag: CountryTag,
    /// The tag that its country is stored under.
    pub stored: CountryTag,
}

impl WarParticipant {
    /// A booking, with what the record says of the event that it is of.
    pub(crate) fn written(
        &[war, tag, stored]: &[u32; BOOKING_WORDS],
        (date, side): (Eu4Date, Side),
    ) -> WarParticipant {
        let [tag, stored] = [tag, stored].map(CountryTag::written);
        WarParticipant { war: war as usize, date, side, tag, stored }
    }
}

impl fmt::Display for WarParticipant {
    fn fmt(&self, f: &mut fmt::Formatter<'_>) -> fmt::Result {
        let WarParticipant { war, date, side, tag, stored } = self;
        f.pad(&format!("{date} war {war}: {tag} as {side}, stored under {stored}"))
    }
}
