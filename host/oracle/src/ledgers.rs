//! The ledgers of a list of nations: the Rust, the model and the library.

use std::ops::Range;

use chronicle_trial::pack::Campaign;
use chronicle_trial::rows::{LedgerRow, Nation};
use chronicle_trial::{model, trial};
use eu4save::query::NationEvents;

use crate::compare::rows_equal;
use crate::rust::Rust;
use crate::seen::Seen;

/// A list whose ledgers have more rows than this is lent in parts, for want of memory.
const MOST_ROWS: usize = 2_000_000;

/// How often the library answered.
const LIBRARY: [&str; 3] = [
    "library: ledger row of all nations",
    "library: ledger row of a nation asked for alone",
    "library: ledger of a nation past the list",
];

/// What a comparison counts of the library's answers, so that none is missed silently.
///
/// ```
/// use chronicle_oracle::ledgers::looked_for;
///
/// assert!(looked_for().any(|what| what == "library: ledger row of all nations"));
/// ```
pub fn looked_for() -> impl Iterator<Item = &'static str> {
    LIBRARY.into_iter()
}

/// Whose ledgers are compared, and where the Rust and the library have them from.
#[derive(Debug)]
#[allow(missing_docs)]
pub struct Ledgers<'a> {
    pub campaign: &'a Campaign,
    pub record: &'a [u8],
    pub rust: &'a Rust,
    pub nations: &'a [Nation],
    pub theirs: &'a [NationEvents],
}

impl Ledgers<'_> {
    /// Holds the Rust's ledger of every nation against the model's, and then the library's: of all
    /// by one call, and of those with these numbers each by calls of its own.
    ///
    /// ```
    /// use chronicle_trial::{model, pack::pack, sample};
    /// use chronicle_oracle::ledgers::Ledgers;
    /// use chronicle_oracle::rust::{nation_events, Rust};
    /// use chronicle_oracle::seen::Seen;
    ///
    /// let campaign = &sample::worked();
    /// let (record, rust) = (&pack(campaign)[..], &Rust::of(campaign));
    /// let nations = &model::chronicle(campaign).nations[..];
    /// let theirs = &nations.iter().map(nation_events).collect::<Vec<_>>()[..];
    /// let ledgers = Ledgers { campaign, record, rust, nations, theirs };
    /// assert_eq!(ledgers.compare(&[0, 1], &mut Seen::default()), Ok(()));
    /// ```
    pub fn compare(&self, each: &[usize], seen: &mut Seen) -> Result<(), String> {
        let (mut first, mut rows, mut part) = (0, 0, Vec::new());
        for (number, nation) in self.nations.iter().enumerate() {
            let ours = model::ledger(self.campaign, nation);
            let theirs = self.rust.ledger(&self.theirs[number]);
            rows_equal(&format!("ledger of nation {number}"), &theirs, &ours)?;
            rows += ours.len();
            part.push(ours);
            if rows > MOST_ROWS {
                self.part(first..number + 1, &part, each, seen)?;
                (first, rows) = (number + 1, 0);
                part.clear();
            }
        }
        self.part(first..self.nations.len(), &part, each, seen)
    }

    fn part(
        &self,
        part: Range<usize>,
        ledgers: &[Vec<LedgerRow>],
        each: &[usize],
        seen: &mut Seen,
    ) -> Result<(), String> {
        let alone = each.iter().filter(|number| part.contains(number));
        let alone: Vec<usize> = alone.map(|number| number - part.start).collect();
        let nations = &self.nations[part];
        trial::ledgers(self.record, nations, ledgers, &alone)?;
        seen.ledgers(self.campaign, nations, ledgers);
        let all = ledgers.iter().map(Vec::len).sum();
        seen.add("row: ledger point", all);
        let asked = alone.iter().map(|&number| ledgers[number].len()).sum();
        looked_for().zip([all, asked, 1]).for_each(|(what, times)| seen.add(what, times));
        Ok(())
    }
}
