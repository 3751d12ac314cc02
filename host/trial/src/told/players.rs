//! Players and histories as values, with their names.

use chronicle::layout::Counts;
use chronicle::rows::HISTORY_WORDS;

use crate::pack::Tag;
use crate::rows::History;

/// A name, which may be any bytes.
#[derive(Clone, Copy, Debug, PartialEq, Eq)]
pub struct Name<'a> {
    /// Its string number.
    pub number: usize,
    /// As they stand in the record.
    pub bytes: &'a [u8],
}

impl<'a> Name<'a> {
    /// The bytes as text, if they are UTF-8.
    ///
    /// ```
    /// use chronicle_trial::told::Name;
    ///
    /// assert_eq!(Name { number: 0, bytes: "Zoë".as_bytes() }.text(), Some("Zoë"));
    /// assert_eq!(Name { number: 0, bytes: b"Zo\xeb" }.text(), None);
    /// ```
    pub fn text(self) -> Option<&'a str> {
        std::str::from_utf8(self.bytes).ok()
    }

    pub(super) fn numbered(strings: &[&'a [u8]], number: usize) -> Name<'a> {
        Name { number, bytes: strings[number] }
    }
}

/// A player by name.
#[derive(Clone, Copy, Debug, PartialEq, Eq)]
#[allow(missing_docs)]
pub struct NamedPlayer<'a> {
    pub name: Name<'a>,
    pub tag: Tag,
}

/// A country that was played, with the names of its players.
#[derive(Clone, Debug, PartialEq, Eq)]
#[allow(missing_docs)]
pub struct NamedHistory<'a> {
    pub initial: Tag,
    pub latest: Tag,
    pub stored: Tag,
    /// Number of its nation in the chronicle, if it has one.
    pub nation: Option<usize>,
    pub human: bool,
    pub names: Vec<Name<'a>>,
}

impl<'a> NamedHistory<'a> {
    pub(super) fn told(
        row: [u32; HISTORY_WORDS],
        names: &[u32],
        strings: &[&'a [u8]],
    ) -> NamedHistory<'a> {
        let History { initial, latest, stored, nation, human, names } = History::told(row, names);
        let names = names.into_iter().map(|name| Name::numbered(strings, name)).collect();
        NamedHistory { initial, latest, stored, nation, human, names }
    }
}

/// The strings of an accepted record.
pub(super) fn strings(record: &[u8]) -> Vec<&[u8]> {
    let head = record.first_chunk().expect("an accepted record has a head");
    let mut rest = &record[Counts::read(head).sections().strings..];
    let mut strings = Vec::new();
    while let Some((&length, behind)) = rest.split_first() {
        let (string, others) = behind.split_at(usize::from(length));
        strings.push(string);
        rest = others;
    }
    strings
}
