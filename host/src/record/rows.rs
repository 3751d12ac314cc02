//! What is read of the record's rows as they stand.

use super::Record;
use crate::layout::{COUNTRY, WAR_EVENT};
use crate::{CountryTag, Eu4Date, Side};

impl Record<'_> {
    /// The tags that the countries are stored under, in the order of their rows.
    ///
    /// ```
    /// use chronicle::{Record, Refusal};
    ///
    /// let bytes = std::fs::read("../samples/worked.atl").unwrap();
    /// let record = Record::open(&bytes)?;
    /// assert_eq!(record.countries().map(|tag| tag.to_string()).collect::<Vec<_>>(), ["GBR", "FRA"]);
    /// # Ok::<(), Refusal>(())
    /// ```
    pub fn countries(&self) -> impl ExactSizeIterator<Item = CountryTag> + '_ {
        let section = self.bytes.get(self.counts.sections().countries).unwrap_or(&[]);
        let tag = |row: &[u8; COUNTRY]| u32::from_be_bytes([0, row[0], row[1], row[2]]);
        section.as_chunks().0.iter().map(move |row| CountryTag::written(tag(row)))
    }

    /// The events that add a tag to a war, in their order: when, and to which side.
    pub(crate) fn war_entries(&self) -> impl Iterator<Item = (Eu4Date, Side)> + '_ {
        let section = self.bytes.get(self.counts.sections().war_events).unwrap_or(&[]);
        let entry = |&[a, b, c, d, kind, ..]: &[u8; WAR_EVENT]| {
            let side = match kind {
                0 => Side::Attacker,
                1 => Side::Defender,
                _ => return None,
            };
            Some((Eu4Date::written(u32::from_le_bytes([a, b, c, d])), side))
        };
        section.as_chunks().0.iter().filter_map(entry)
    }

    /// The strings, which run from the last section to the end.
    pub(crate) fn strings(&self) -> Vec<&[u8]> {
        let mut rest = self.bytes.get(self.counts.sections().strings..).unwrap_or(&[]);
        let mut strings = Vec::with_capacity(self.counts.strings);
        while let Some((&length, behind)) = rest.split_first() {
            let (string, others) = behind.split_at(behind.len().min(usize::from(length)));
            strings.push(string);
            rest = others;
        }
        strings
    }
}
