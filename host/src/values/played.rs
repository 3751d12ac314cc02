//! Players, and the countries that they played.

use std::fmt;

use super::CountryTag;
use crate::rows::HISTORY_WORDS;

/// A player's name, which may be any bytes.
#[derive(Clone, Debug, PartialEq, Eq, PartialOrd, Ord, Hash)]
pub struct Name {
    /// The number of its string in the record, from 0.
    pub number: usize,
    /// As they stand in the record.
    pub bytes: Vec<u8>,
}

impl Name {
    /// The bytes as text, if they are UTF-8.
    ///
    /// ```
    /// use chronicle::Name;
    ///
    /// assert_eq!(Name { number: 0, bytes: "Zoë".into() }.text(), Some("Zoë"));
    /// let name = Name { number: 0, bytes: b"Zo\xeb".into() };
    /// assert_eq!((name.text(), name.to_string()), (None, "Zo\u{fffd}".into()));
    /// ```
    pub fn text(&self) -> Option<&str> {
        std::str::from_utf8(&self.bytes).ok()
    }

    /// Nameless if the record has no such string, which the library's rows never say.
    pub(crate) fn numbered(strings: &[&[u8]], number: u32) -> Name {
        let number = number as usize;
        Name { number, bytes: strings.get(number).map_or_else(Vec::new, |bytes| bytes.to_vec()) }
    }
}

impl AsRef<[u8]> for Name {
    fn as_ref(&self) -> &[u8] {
        &self.bytes
    }
}

impl PartialEq<str> for Name {
    fn eq(&self, text: &str) -> bool {
        self.bytes == text.as_bytes()
    }
}

impl PartialEq<&str> for Name {
    fn eq(&self, text: &&str) -> bool {
        *self == **text
    }
}

/// Bytes that are no text are told as `\u{fffd}`.
impl fmt::Display for Name {
    fn fmt(&self, f: &mut fmt::Formatter<'_>) -> fmt::Result {
        f.pad(&String::from_utf8_lossy(&self.bytes))
    }
}

/// Somebody who plays a country.
#[derive(Clone, Debug, PartialEq, Eq, PartialOrd, Ord, Hash)]
pub struct Player {
    /// Who plays
    pub name: Name,
    /// which country.
    pub tag: CountryTag,
}

impl fmt::Display for Player {
    fn fmt(&self, f: &mut fmt::Formatter<'_>) -> fmt::Result {
        f.pad(&format!("{} plays {}", self.name, self.tag))
    }
}

/// A country that was played.
#[derive(Clone, Debug, PartialEq, Eq, PartialOrd, Ord, Hash)]
pub struct PlayerHistory {
    /// The tag that it began with.
    pub initial: CountryTag,
    /// The tag that it came to last.
    pub latest: CountryTag,
    /// The tag that it is stored under.
    pub stored: CountryTag,
    /// The number of its nation in the chronicle, from 0; a country that never held land has none.
    pub nation: Option<usize>,
    /// Whether a player is in the session now.
    pub is_human: bool,
    /// Those who play it now, perhaps nobody.
    pub player_names: Vec<Name>,
}

impl PlayerHistory {
    pub(crate) fn written(
        row: &[u32; HISTORY_WORDS],
        names: &[u32],
        strings: &[&[u8]],
    ) -> PlayerHistory {
        let &[initial, latest, stored, nation, human, first, count] = row;
        let [initial, latest, stored] = [initial, latest, stored].map(CountryTag::written);
        let own = names.iter().skip(first as usize).take(count as usize);
        PlayerHistory {
            initial,
            latest,
            stored,
            nation: (nation as usize).checked_sub(1),
            is_human: human != 0,
            player_names: own.map(|&name| Name::numbered(strings, name)).collect(),
        }
    }
}

impl fmt::Display for PlayerHistory {
    fn fmt(&self, f: &mut fmt::Formatter<'_>) -> fmt::Result {
        let PlayerHistory { initial, latest, stored, .. } = self;
        f.pad(&format!("{initial}, now {latest}, stored under {stored}"))
    }
}
