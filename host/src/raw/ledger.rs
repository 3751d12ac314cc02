//! Ledgers: given a record and lent the words of a chronicle, the record's own or any other.
//!
//! A ledger can be far longer than its record: years may fall, and each fall is filled up again. So
//! a host says how many rows it is ready to hold, and asks before it lends.
//!
//! Every call checks the whole record. Who wants one nation's ledger asks for it alone; who wants
//! many, or all 2,000, asks for all at once ([`Chronicle::nation_ledgers`]).

use super::{c, counted, Chronicle};
use crate::Refusal;

impl Chronicle<'_> {
    /// Writes the ledger of a nation of this chronicle, numbered from 0: three words for each year
    /// (tag, year, value in two's complement); and says how many rows they are.
    ///
    /// # Panics
    ///
    /// If the library answers a number that is neither a count nor a refusal's.
    ///
    /// ```
    /// use chronicle::{raw::Chronicle, Refusal};
    ///
    /// let record = std::fs::read("../samples/isles.atl").unwrap();
    /// let uls = 0x55_4c_53;
    /// let rows = Chronicle { nations: &[uls, uls, uls, 0, 1], entries: &[14660101, 2, 0] };
    /// let mut out = [7; 100];
    /// assert_eq!(rows.nation_ledger(&record, 0, &mut out), Ok(22));
    /// assert_eq!(out[51..57], [uls, 1462, 10, uls, 1463, 0]);
    /// assert_eq!(rows.nation_ledger(&record, 0, &mut out[..65]), Err(Refusal::NoRoom(None)));
    /// assert_eq!(rows.nation_ledger(&record, 1, &mut out), Err(Refusal::NoSuchNation));
    /// ```
    pub fn nation_ledger(
        self,
        record: &[u8],
        nation: usize,
        out: &mut [u32],
    ) -> Result<usize, Refusal> {
        // SAFETY: each pointer comes with the length of the live slice it belongs to; the function
        // reads three, writes within the fourth, and keeps none.
        let answer = unsafe {
            c::chronicle_nation_ledger(
                record.as_ptr(),
                record.len(),
                self.nations.as_ptr(),
                self.nations.len(),
                self.entries.as_ptr(),
                self.entries.len(),
                nation,
                out.as_mut_ptr(),
                out.len(),
            )
        };
        counted("nation_ledger", answer)
    }

    /// How many rows [`Chronicle::nation_ledger`] has for a nation; of more than `most`, it counts
    /// no further.
    ///
    /// # Panics
    ///
    /// If the library answers a number that is neither a count nor a refusal's.
    ///
    /// ```
    /// use chronicle::{raw::Chronicle, Refusal};
    ///
    /// let record = std::fs::read("../samples/isles.atl").unwrap();
    /// let uls = 0x55_4c_53;
    /// let rows = Chronicle { nations: &[uls, uls, uls, 0, 1], entries: &[14660101, 2, 0] };
    /// assert_eq!(rows.nation_ledger_rows(&record, 0, usize::MAX), Ok(22));
    /// assert_eq!(rows.nation_ledger_rows(&record, 0, 4), Ok(4));
    /// assert_eq!(rows.nation_ledger_rows(&record, 1, 4), Err(Refusal::NoSuchNation));
    /// ```
    pub fn nation_ledger_rows(
        self,
        record: &[u8],
        nation: usize,
        most: usize,
    ) -> Result<usize, Refusal> {
        // SAFETY: each pointer comes with the length of the live slice it belongs to; the function
        // only reads them and keeps none.
        let answer = unsafe {
            c::chronicle_nation_ledger_rows(
                record.as_ptr(),
                record.len(),
                self.nations.as_ptr(),
                self.nations.len(),
                self.entries.as_ptr(),
                self.entries.len(),
                nation,
                most,
            )
        };
        counted("nation_ledger_rows", answer)
    }

    /// Writes the ledgers of all nations, one behind the other, and for each nation the number of
    /// its rows; and says how many they are together. A slice that is too short, either of them,
    /// is [`Refusal::NoRoom`].
    ///
    /// # Panics
    ///
    /// If the library answers a number that is neither a count nor a refusal's.
    ///
    /// ```
    /// use chronicle::{raw::Chronicle, Refusal};
    ///
    /// let record = std::fs::read("../samples/isles.atl").unwrap();
    /// let (uls, fra) = (0x55_4c_53, 0x46_52_41);
    /// let nations = [fra, fra, fra, 0, 0, uls, uls, uls, 0, 1];
    /// let rows = Chronicle { nations: &nations, entries: &[14660101, 2, 0] };
    /// let (mut out, mut counts) = ([7; 100], [7; 3]);
    /// assert_eq!(rows.nation_ledgers(&record, &mut out, &mut counts), Ok(22));
    /// assert_eq!((out[66], counts), (7, [0, 22, 7]));
    /// let refused = rows.nation_ledgers(&record, &mut out, &mut counts[..1]);
    /// assert_eq!(refused, Err(Refusal::NoRoom(None)));
    /// ```
    pub fn nation_ledgers(
        self,
        record: &[u8],
        out: &mut [u32],
        counts: &mut [u64],
    ) -> Result<usize, Refusal> {
        // SAFETY: as for `nation_ledger`, with two slices that are written to; they are borrowed
        // apart, so that they do not overlap.
        let answer = unsafe {
            c::chronicle_nation_ledgers(
                record.as_ptr(),
                record.len(),
                self.nations.as_ptr(),
                self.nations.len(),
                self.entries.as_ptr(),
                self.entries.len(),
                out.as_mut_ptr(),
                out.len(),
                counts.as_mut_ptr(),
                counts.len(),
            )
        };
        counted("nation_ledgers", answer)
    }
}
