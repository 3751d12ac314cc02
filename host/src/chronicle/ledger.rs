//! A nation's yearly values, under the tags that it wore.

use super::Chronicle;
use crate::deep::{deep, Depth};
use crate::refusal::{Lacking, Shortage};
use crate::rows::LEDGER_WORDS;
use crate::values::LedgerPoint;
use crate::Refusal;

impl Chronicle<'_> {
    /// As many rows, 192 MiB, are held for [`nation_ledger`](Self::nation_ledger) and [`nation_ledgers`](Self::nation_ledgers). A
    /// ledger can be far longer than its record, for years may fall, and each fall is filled up again.
    pub const MOST_LEDGER_ROWS: usize = 1 << 24;

    /// The ledger of the nation with a number, from 0: a row for each year, 0 where none was kept.
    ///
    /// # Errors
    ///
    /// [`Refusal::NoSuchNation`]; and [`Refusal::NoRoom`] for more than
    /// [`MOST_LEDGER_ROWS`](Self::MOST_LEDGER_ROWS), which says how many there are.
    ///
    /// ```
    /// use chronicle::{LedgerPoint, Record, Refusal};
    ///
    /// let bytes = std::fs::read("../samples/isles.atl").unwrap();
    /// let record = Record::open(&bytes)?;
    /// let chronicle = record.chronicle()?;
    /// let ireland = chronicle.stored_under("IRE".parse()?).unwrap();
    /// let ledger = chronicle.nation_ledger(ireland.number)?;
    /// assert_eq!(ledger[2], LedgerPoint { tag: "TYR".parse()?, year: 1447, value: 5 });
    /// assert_eq!(chronicle.nation_ledger(11), Err(Refusal::NoSuchNation));
    /// # Ok::<(), Refusal>(())
    /// ```
    pub fn nation_ledger(&self, nation: usize) -> Result<Vec<LedgerPoint>, Refusal> {
        self.nation_ledger_within(nation, Self::MOST_LEDGER_ROWS)
    }

    /// The same, of at most so many rows.
    ///
    /// # Errors
    ///
    /// As [`nation_ledger`](Self::nation_ledger).
    ///
    /// ```
    /// use chronicle::{Lacking, Record, Refusal, Shortage};
    ///
    /// let bytes = std::fs::read("../samples/isles.atl").unwrap();
    /// let record = Record::open(&bytes)?;
    /// let shortage = Shortage { lacking: Lacking::LedgerRows, room: 100, needed: 106 };
    /// let refused = record.chronicle()?.nation_ledger_within(10, 100);
    /// assert_eq!(refused, Err(Refusal::NoRoom(Some(shortage))));
    /// # Ok::<(), Refusal>(())
    /// ```
    pub fn nation_ledger_within(
        &self,
        nation: usize,
        most: usize,
    ) -> Result<Vec<LedgerPoint>, Refusal> {
        let (rows, bytes) = (self.rows(), self.record().bytes());
        let words = deep(Depth::Rows, || {
            let needed = rows.nation_ledger_rows(bytes, nation, usize::MAX)?;
            if needed > most {
                return Err(shortage(most, needed));
            }
            let mut out = vec![0; LEDGER_WORDS * needed];
            rows.nation_ledger(bytes, nation, &mut out)?;
            Ok(out)
        })?;
        Ok(points(&words))
    }

    /// The ledgers of all nations, in their order, by one pass: for many nations faster than one by one.
    ///
    /// # Errors
    ///
    /// [`Refusal::NoRoom`] for more than [`MOST_LEDGER_ROWS`](Self::MOST_LEDGER_ROWS) together.
    ///
    /// ```
    /// use chronicle::{Record, Refusal};
    ///
    /// let bytes = std::fs::read("../samples/isles.atl").unwrap();
    /// let record = Record::open(&bytes)?;
    /// let chronicle = record.chronicle()?;
    /// let ledgers = chronicle.nation_ledgers()?;
    /// assert_eq!((ledgers.len(), &ledgers[10]), (11, &chronicle.nation_ledger(10)?));
    /// # Ok::<(), Refusal>(())
    /// ```
    pub fn nation_ledgers(&self) -> Result<Vec<Vec<LedgerPoint>>, Refusal> {
        let mut counts = vec![0; self.nations().len()];
        let mut room = self.record().counts().points.min(Self::MOST_LEDGER_ROWS);
        loop {
            let mut out = vec![0; LEDGER_WORDS * room];
            let bytes = self.record().bytes();
            match deep(Depth::Rows, || self.rows().nation_ledgers(bytes, &mut out, &mut counts)) {
                // Each round has twice the room, until the most that is held.
                Err(Refusal::NoRoom(None)) if room < Self::MOST_LEDGER_ROWS => {
                    room = Self::MOST_LEDGER_ROWS.min(2 * room + 1);
                }
                Err(Refusal::NoRoom(None)) => return Err(shortage(room, room + 1)),
                Err(refusal) => return Err(refusal),
                Ok(rows) => return Ok(apart(&out[..out.len().min(LEDGER_WORDS * rows)], &counts)),
            }
        }
    }
}

fn shortage(room: usize, needed: usize) -> Refusal {
    Refusal::NoRoom(Some(Shortage { lacking: Lacking::LedgerRows, room, needed }))
}

fn points(words: &[u32]) -> Vec<LedgerPoint> {
    words.as_chunks().0.iter().map(LedgerPoint::written).collect()
}

/// Each nation's rows by themselves.
fn apart(mut words: &[u32], counts: &[u64]) -> Vec<Vec<LedgerPoint>> {
    let own = |&count: &u64| {
        let (own, others) = words.split_at(words.len().min(LEDGER_WORDS * count as usize));
        words = others;
        points(own)
    };
    counts.iter().map(own).collect()
}
