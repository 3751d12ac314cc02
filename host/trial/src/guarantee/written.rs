//! What the library wrote for a record: the finished chronicle (Rules 12.4).

use chronicle::rows::{BOOKING_WORDS, CHANGE_WORDS, COUNT_WORDS, ENTRY_WORDS, NATION_WORDS};

use crate::rows::{tag_of_word, Change};

/// The words of the rows written, without what was lent beyond them.
#[derive(Clone, Debug, Default, PartialEq, Eq)]
#[allow(missing_docs)]
pub struct Written {
    pub nations: Vec<u32>,
    pub entries: Vec<u32>,
    pub changes: Vec<u32>,
    pub bookings: Vec<u32>,
}

impl Written {
    /// Calls nations with room for every row that such a record can have, and bookings with the rows
    /// that nations wrote.
    ///
    /// # Errors
    ///
    /// The refusal of either call.
    ///
    /// ```
    /// use chronicle::Refusal;
    /// use chronicle_trial::{guarantee::Written, sample};
    ///
    /// let written = Written::of(sample::WORKED).unwrap();
    /// assert_eq!([written.nations.len(), written.entries.len(), written.changes.len()], [10, 9, 8]);
    /// assert_eq!(Written::of(b"ATL"), Err(Refusal::NotARecord));
    /// ```
    pub fn of(record: &[u8]) -> Result<Written, chronicle::Refusal> {
        use chronicle::layout::{Counts, LIMITS};

        let head = record.first_chunk().map_or_else(Counts::default, Counts::read);
        let switches = head.switches.min(LIMITS.switches);
        let events = head.owner_events.min(LIMITS.owner_events);
        let cells = [
            NATION_WORDS * head.countries,
            ENTRY_WORDS * (switches + 2 * events),
            head.provinces + 1,
            head.countries,
            CHANGE_WORDS * events,
            COUNT_WORDS,
            BOOKING_WORDS * head.war_events.min(LIMITS.war_events),
        ];
        let mut lent = cells.map(|length| vec![0; length]);
        let [nations, entries, holders, held, changes, counts, _] =
            lent.each_mut().map(|cells| &mut cells[..]);
        let room = chronicle::raw::Room { nations, entries, holders, held, changes, counts };
        chronicle::raw::nation_events(record, room)?;
        let [mut nations, mut entries, _, _, mut changes, counts, mut bookings] = lent;
        nations.truncate(NATION_WORDS * counts[0] as usize);
        entries.truncate(ENTRY_WORDS * counts[1] as usize);
        changes.truncate(CHANGE_WORDS * counts[4] as usize);
        let rows = chronicle::raw::Chronicle { nations: &nations, entries: &entries };
        let booked = rows.war_participants(record, &mut bookings)?;
        bookings.truncate(BOOKING_WORDS * booked);
        Ok(Written { nations, entries, changes, bookings })
    }

    /// The changes that the rows tell; none if a row is not whole or an id is none.
    pub(super) fn changes(&self) -> Option<Vec<Change>> {
        let (rows, rest) = self.changes.as_chunks();
        let change = |&[date, id, from, to]: &[u32; CHANGE_WORDS]| {
            let [from, to] = [from, to].map(tag_of_word);
            Some(Change { date, id: u16::try_from(id).ok()?, from, to })
        };
        if rest.is_empty() {
            rows.iter().map(change).collect()
        } else {
            None
        }
    }
}
