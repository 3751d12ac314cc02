//! Players, the countries they played and the one they began with.

use super::{c, counted, Chronicle};
use crate::rows::HISTORY_WORDS;
use crate::Refusal;

/// Writes the players of a record, two words each (string number of the name, tag), and says how
/// many they are.
///
/// # Panics
///
/// If the library answers a number that is neither a count nor a refusal's.
///
/// ```
/// use chronicle::{raw::players, Refusal};
///
/// let record = std::fs::read("../samples/isles.atl").unwrap();
/// let mut out = [7; 5];
/// assert_eq!(players(&record, &mut out), Ok(2));
/// assert_eq!(out, [0, 0x49_52_45, 4, 0x4e_45_44, 7]);
/// assert_eq!(players(&record, &mut out[..3]), Err(Refusal::NoRoom(None)));
/// assert_eq!(players(b"ATL", &mut out), Err(Refusal::NotARecord));
/// ```
pub fn players(record: &[u8], out: &mut [u32]) -> Result<usize, Refusal> {
    // SAFETY: each pointer comes with the length of the live slice it belongs to; the function
    // reads the one, writes within the other, and keeps neither.
    let answer =
        unsafe { c::chronicle_players(record.as_ptr(), record.len(), out.as_mut_ptr(), out.len()) };
    counted("players", answer)
}

/// How many histories and how many names were written.
#[derive(Clone, Copy, Debug, Default, PartialEq, Eq, Hash)]
pub struct HistoryCounts {
    /// Rows of seven words.
    pub histories: usize,
    /// Words of the list that they point into.
    pub names: usize,
}

impl Chronicle<'_> {
    /// Writes a history for each country of a record that was played, seven words each (initial,
    /// latest, stored, nation from 1 or 0, human, first name, names), and the string numbers of the
    /// names; says how many of both there are. Either slice may be the one without room.
    ///
    /// # Panics
    ///
    /// If the library answers a number that is neither a count nor a refusal's.
    ///
    /// ```
    /// use chronicle::raw::{Chronicle, HistoryCounts};
    /// use chronicle::Refusal;
    ///
    /// let record = std::fs::read("../samples/isles.atl").unwrap();
    /// let (tyr, ire) = (0x54_59_52, 0x49_52_45);
    /// let rows = Chronicle { nations: &[tyr, ire, ire, 0, 1], entries: &[14650301, 0, ire] };
    /// let [mut out, mut names] = [[7; 22]; 2];
    /// let counts = HistoryCounts { histories: 3, names: 2 };
    /// assert_eq!(rows.player_histories(&record, &mut out, &mut names), Ok(counts));
    /// assert_eq!((&out[..7], out[21]), (&[tyr, ire, ire, 1, 1, 0, 1][..], 7));
    /// assert_eq!(names[..3], [0, 4, 7]);
    /// let short = rows.player_histories(&record, &mut out, &mut names[..1]);
    /// assert_eq!(short, Err(Refusal::NoRoom(None)));
    /// let torn = Chronicle { nations: &[tyr], entries: &[] };
    /// let refused = torn.player_histories(&record, &mut out, &mut names[..1]);
    /// assert_eq!(refused, Err(Refusal::NotWellShaped));
    /// ```
    pub fn player_histories(
        self,
        record: &[u8],
        histories: &mut [u32],
        names: &mut [u32],
    ) -> Result<HistoryCounts, Refusal> {
        // SAFETY: each pointer comes with the length of the live slice it belongs to; the function
        // reads three, writes within the other two, which are borrowed apart, and keeps none.
        let answer = unsafe {
            c::chronicle_player_histories(
                record.as_ptr(),
                record.len(),
                self.nations.as_ptr(),
                self.nations.len(),
                self.entries.as_ptr(),
                self.entries.len(),
                histories.as_mut_ptr(),
                histories.len(),
                names.as_mut_ptr(),
                names.len(),
            )
        };
        let rows = counted("player_histories", answer)?;
        // The last history's names are the last of all.
        let last = histories.as_chunks::<HISTORY_WORDS>().0[..rows].last();
        let names = last.map_or(0, |&[.., first, count]| first as usize + count as usize);
        Ok(HistoryCounts { histories: rows, names })
    }

    /// Writes the tag that play began with, by history words, as
    /// [`player_histories`](Self::player_histories) writes them or as anybody else does: 1 with the
    /// tag's word written, or 0, which needs no room.
    ///
    /// # Panics
    ///
    /// If the library answers a number that is neither 0, 1 nor a refusal's.
    ///
    /// ```
    /// use chronicle::{raw::Chronicle, Refusal};
    ///
    /// let rows = Chronicle { nations: &[], entries: &[] };
    /// let bare = [0x47_42_52, 0x47_42_52, 0x47_42_52, 0, 0, 0, 0];
    /// let mut out = [7; 2];
    /// assert_eq!(rows.starting_country(&bare, &mut out), Ok(1));
    /// assert_eq!(out, [0x47_42_52, 7]);
    /// assert_eq!(rows.starting_country(&bare, &mut []), Err(Refusal::NoRoom(None)));
    /// assert_eq!(rows.starting_country(&[], &mut []), Ok(0));
    /// assert_eq!(rows.starting_country(&[7], &mut []), Err(Refusal::NotWellShaped));
    /// ```
    pub fn starting_country(self, histories: &[u32], out: &mut [u32]) -> Result<usize, Refusal> {
        // SAFETY: each pointer comes with the length of the live slice it belongs to; the function
        // reads three, writes within the fourth, and keeps none.
        let answer = unsafe {
            c::chronicle_starting_country(
                histories.as_ptr(),
                histories.len(),
                self.nations.as_ptr(),
                self.nations.len(),
                self.entries.as_ptr(),
                self.entries.len(),
                out.as_mut_ptr(),
                out.len(),
            )
        };
        match counted("starting_country", answer)? {
            words @ (0 | 1) => Ok(words),
            words => panic!("starting_country answers {words} words"),
        }
    }
}
