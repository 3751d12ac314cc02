//! The page of a record.

use super::Record;
use crate::deep::{deep, Depth};
use crate::refusal::{Lacking, Shortage};
use crate::{raw, CountryTag, Refusal};

/// A page holds as many bytes of a record, and as many of a selection.
const PAGE_BYTES: usize = 65_536;

/// A page holds as many owner changes.
const PAGE_CHANGES: usize = 4_000;

/// A page holds as many entries.
const PAGE_ENTRIES: usize = 5_000;

impl Record<'_> {
    /// The page: how many tags are selected, then a line for each. No tag gives `selected 0` alone, and
    /// never all nations.
    ///
    /// # Errors
    ///
    /// [`Refusal::NoRoom`] for more than a page holds, 65,536 bytes of record, 16,384 tags, 4,000 owner
    /// changes or 5,000 entries; it says which.
    ///
    /// ```
    /// use chronicle::{Record, Refusal};
    ///
    /// let bytes = std::fs::read("../samples/worked.atl").unwrap();
    /// let record = Record::open(&bytes)?;
    /// let page = record.page(&["GBR".parse()?, "SCO".parse()?])?;
    /// assert_eq!(page, "selected 2\nGBR ENG GBR 3 living\nSCO absent\n");
    /// assert_eq!(record.page(&[])?, "selected 0\n");
    /// # Ok::<(), Refusal>(())
    /// ```
    pub fn page(&self, selection: &[CountryTag]) -> Result<String, Refusal> {
        let line = |tag: &CountryTag| tag.bytes().into_iter().chain([b'\n']);
        let selection: Vec<u8> = selection.iter().flat_map(line).collect();
        let mut out = vec![0; raw::page_room(selection.len())];
        let written = deep(Depth::Page, || raw::write_page(&self.bytes, &selection, &mut out));
        match written {
            Ok(bytes) => {
                out.truncate(bytes);
                Ok(String::from_utf8_lossy(&out).into_owned())
            }
            Err(Refusal::NoRoom(None)) => Err(self.page_shortage(selection.len())),
            Err(refusal) => Err(refusal),
        }
    }

    /// What a page of this record does not hold.
    fn page_shortage(&self, selection: usize) -> Refusal {
        let bytes = [
            (Lacking::PageRecord, PAGE_BYTES, self.bytes.len()),
            (Lacking::PageSelection, PAGE_BYTES, selection),
        ];
        if let Some(shortage) = first_short(bytes) {
            return Refusal::NoRoom(Some(shortage));
        }
        let chronicle = match self.chronicle() {
            Ok(chronicle) => chronicle,
            Err(refusal) => return refusal,
        };
        let rows = [
            (Lacking::PageChanges, PAGE_CHANGES, chronicle.owner_changes().len()),
            (Lacking::PageEntries, PAGE_ENTRIES, chronicle.entries().len()),
        ];
        Refusal::NoRoom(first_short(rows))
    }
}

/// The first part that needs more than its room.
fn first_short(parts: [(Lacking, usize, usize); 2]) -> Option<Shortage> {
    let short = parts.into_iter().find(|(_, room, needed)| needed > room);
    short.map(|(lacking, room, needed)| Shortage { lacking, room, needed })
}
