//! Provinces, and who owned them.

use std::fmt;
use std::num::{ParseIntError, TryFromIntError};
use std::str::FromStr;

use super::{CountryTag, Eu4Date, NotARow};
use crate::rows::CHANGE_WORDS;

/// The number of a province, from 0 to the number of provinces.
///
/// ```
/// use chronicle::ProvinceId;
///
/// let id: ProvinceId = "7".parse()?;
/// assert_eq!((id, u32::from(id), id.to_string()), (ProvinceId(7), 7, "7".into()));
/// assert_eq!(format!("{id:03}"), "007");
/// assert!(ProvinceId::try_from(65_536_u32).is_err());
/// # Ok::<(), std::num::ParseIntError>(())
/// ```
#[derive(Clone, Copy, Debug, Default, PartialEq, Eq, PartialOrd, Ord, Hash)]
pub struct ProvinceId(pub u16);

impl ProvinceId {
    /// The number.
    ///
    /// ```
    /// assert_eq!(chronicle::ProvinceId(7).as_u16(), 7);
    /// ```
    pub fn as_u16(self) -> u16 {
        self.0
    }
}

impl fmt::Display for ProvinceId {
    fn fmt(&self, f: &mut fmt::Formatter<'_>) -> fmt::Result {
        self.0.fmt(f)
    }
}

impl FromStr for ProvinceId {
    type Err = ParseIntError;

    fn from_str(text: &str) -> Result<ProvinceId, ParseIntError> {
        text.parse().map(ProvinceId)
    }
}

impl From<u16> for ProvinceId {
    fn from(number: u16) -> ProvinceId {
        ProvinceId(number)
    }
}

impl TryFrom<u32> for ProvinceId {
    type Error = TryFromIntError;

    fn try_from(word: u32) -> Result<ProvinceId, TryFromIntError> {
        u16::try_from(word).map(ProvinceId)
    }
}

impl From<ProvinceId> for u16 {
    fn from(id: ProvinceId) -> u16 {
        id.0
    }
}

impl From<ProvinceId> for u32 {
    fn from(id: ProvinceId) -> u32 {
        id.0.into()
    }
}

impl From<ProvinceId> for usize {
    fn from(id: ProvinceId) -> usize {
        id.0.into()
    }
}

/// A province went from one owner to another.
///
/// ```
/// use chronicle::{NotARow, OwnerChange, Record};
///
/// let record = Record::open(std::fs::read("../samples/worked.atl")?)?;
/// let change = record.province_owners()?[0];
/// assert_eq!(change.to_string(), "1446-01-01 province 1: ENG to FRA");
/// let row: [u32; 4] = change.into();
/// assert_eq!((row[0], OwnerChange::try_from(row)), (14460101, Ok(change)));
/// assert_eq!(OwnerChange::try_from([14460101, 1, 0, 0]), Err(NotARow));
/// # Ok::<(), Box<dyn std::error::Error>>(())
/// ```
#[derive(Clone, Copy, Debug, PartialEq, Eq, PartialOrd, Ord, Hash)]
pub struct OwnerChange {
    /// On this day,
    pub date: Eu4Date,
    /// this province
    pub province: ProvinceId,
    /// left this owner
    pub from: CountryTag,
    /// for this one.
    pub to: CountryTag,
}

impl OwnerChange {
    pub(crate) fn written(&[date, id, from, to]: &[u32; CHANGE_WORDS]) -> OwnerChange {
        OwnerChange {
            date: Eu4Date::written(date),
            province: ProvinceId(id as u16),
            from: CountryTag::written(from),
            to: CountryTag::written(to),
        }
    }
}

impl TryFrom<[u32; CHANGE_WORDS]> for OwnerChange {
    type Error = NotARow;

    fn try_from([date, id, from, to]: [u32; CHANGE_WORDS]) -> Result<OwnerChange, NotARow> {
        Ok(OwnerChange {
            date: date.try_into()?,
            province: id.try_into().map_err(|_| NotARow)?,
            from: from.try_into()?,
            to: to.try_into()?,
        })
    }
}

impl From<OwnerChange> for [u32; CHANGE_WORDS] {
    fn from(OwnerChange { date, province, from, to }: OwnerChange) -> [u32; CHANGE_WORDS] {
        [date.into(), province.into(), from.into(), to.into()]
    }
}

impl fmt::Display for OwnerChange {
    fn fmt(&self, f: &mut fmt::Formatter<'_>) -> fmt::Result {
        let OwnerChange { date, province, from, to } = self;
        f.pad(&format!("{date} province {province}: {from} to {to}"))
    }
}
