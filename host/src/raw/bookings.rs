//! War bookings: given a record and lent the words of a chronicle, the record's own or any other.

use super::Chronicle;
use super::{c, counted};
use crate::Refusal;

impl Chronicle<'_> {
    /// Writes who entered which war of a record, three words each (war, tag, the tag it is stored
    /// under by this chronicle), and says how many they are. Needs 1 MiB of stack.
    ///
    /// # Panics
    ///
    /// If the library answers a number that is neither a count nor a refusal's.
    ///
    /// ```
    /// use chronicle::{raw::Chronicle, Refusal};
    ///
    /// let record = std::fs::read("../samples/isles.atl").unwrap();
    /// let (eng, gbr) = (0x45_4e_47, 0x47_42_52);
    /// let (nations, entries) = ([eng, gbr, gbr, 0, 1], [14701101, 0, gbr]);
    /// let rows = Chronicle { nations: &nations, entries: &entries };
    /// let mut out = [7; 31];
    /// assert_eq!(rows.war_participants(&record, &mut out), Ok(10));
    /// assert_eq!((&out[3..6], out[30]), (&[0, eng, gbr][..], 7));
    /// assert_eq!(rows.war_participants(&record, &mut out[..29]), Err(Refusal::NoRoom(None)));
    /// let torn = Chronicle { nations: &nations[..4], entries: &entries };
    /// assert_eq!(torn.war_participants(&record, &mut out[..2]), Err(Refusal::NotWellShaped));
    /// assert_eq!(torn.war_participants(&record[1..], &mut out), Err(Refusal::NotARecord));
    /// ```
    pub fn war_participants(self, record: &[u8], out: &mut [u32]) -> Result<usize, Refusal> {
        // SAFETY: each pointer comes with the length of the live slice it belongs to; the function
        // reads three, writes within the fourth, and keeps none.
        let answer = unsafe {
            c::chronicle_war_participants(
                record.as_ptr(),
                record.len(),
                self.nations.as_ptr(),
                self.nations.len(),
                self.entries.as_ptr(),
                self.entries.len(),
                out.as_mut_ptr(),
                out.len(),
            )
        };
        counted("war_participants", answer)
    }
}
