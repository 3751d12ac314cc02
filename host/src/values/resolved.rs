//! Whom a tag was found to be.

use std::fmt;

use super::{CountryTag, NotARow};
use crate::rows::RESOLVED_WORDS;

/// Whom a tag was found to be.
///
/// ```
/// use chronicle::{NotARow, TagData};
///
/// let found = TagData::try_from([0x45_4e_47, 0x47_42_52])?;
/// assert_eq!(found.to_string(), "ENG, stored under GBR");
/// assert_eq!(<[u32; 2]>::from(found), [0x45_4e_47, 0x47_42_52]);
/// assert_eq!(TagData::try_from([0, 0]), Err(NotARow));
/// # Ok::<(), NotARow>(())
/// ```
#[derive(Clone, Copy, Debug, PartialEq, Eq, PartialOrd, Ord, Hash)]
pub struct TagData {
    /// The tag that the nation has now, or wore on the day that was set.
    pub current: CountryTag,
    /// The tag that its country is stored under.
    pub stored: CountryTag,
}

impl TagData {
    pub(crate) fn written([current, stored]: [u32; RESOLVED_WORDS]) -> TagData {
        let [current, stored] = [current, stored].map(CountryTag::written);
        TagData { current, stored }
    }
}

impl TryFrom<[u32; RESOLVED_WORDS]> for TagData {
    type Error = NotARow;

    fn try_from([current, stored]: [u32; RESOLVED_WORDS]) -> Result<TagData, NotARow> {
        Ok(TagData { current: current.try_into()?, stored: stored.try_into()? })
    }
}

impl From<TagData> for [u32; RESOLVED_WORDS] {
    fn from(TagData { current, stored }: TagData) -> [u32; RESOLVED_WORDS] {
        [current.into(), stored.into()]
    }
}

impl fmt::Display for TagData {
    fn fmt(&self, f: &mut fmt::Formatter<'_>) -> fmt::Result {
        f.pad(&format!("{}, stored under {}", self.current, self.stored))
    }
}
