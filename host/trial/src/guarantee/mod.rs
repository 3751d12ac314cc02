//! The guarantee of the finished chronicle (Rules 12.4 to 12.7), tried by running: what nations,
//! resolver and bookings owe each other, found in the cells that the library wrote for one record.
//!
//! For a listed nation and a day from the start date on: the sum of its lives, whom the resolver
//! set to that day finds under the tag it wears, and where those who join a war under that tag are
//! booked. Holding is worked out from the change rows and the start slots, never from kept counts.

mod finished;
mod holding;
mod met;
mod pairs;
mod written;

pub use holding::Holding;
pub use met::{Met, Premise, PREMISES};
pub use written::Written;

use chronicle::raw::{Chronicle, TagData};
use chronicle::Refusal;

use crate::generate::Random;
use crate::pack::{Campaign, Date};
use finished::Finished;

/// The resolver set to a day, asked on that day for a tag's word.
pub type Resolve<'a> = &'a dyn Fn(Date, u32) -> Result<Option<TagData>, Refusal>;

/// Tries the guarantee on a record and its campaign, by what the library writes for it. If there are
/// more pairs of nation and day than `most`, as many are drawn, those with a war first.
///
/// # Errors
///
/// What does not hold, of which nation on which day.
///
/// ```
/// use chronicle_trial::guarantee::{tried, Met, Premise};
/// use chronicle_trial::{generate::Random, sample};
///
/// let (campaign, mut met) = (sample::worked(), Met::default());
/// let outcome = tried(sample::WORKED, &campaign, usize::MAX, &mut Random::new(1), &mut met);
/// assert_eq!(outcome, Ok(()));
/// assert!(met.times(Premise::Alone) > 10);
/// ```
pub fn tried(
    record: &[u8],
    campaign: &Campaign,
    most: usize,
    random: &mut Random,
    met: &mut Met,
) -> Result<(), String> {
    let written = Written::of(record)
        .map_err(|refusal| format!("guarantee: the library refuses by {}", refusal.number()))?;
    let rows = Chronicle { nations: &written.nations, entries: &written.entries };
    let resolve = |day, tag| rows.resolve_at(day, tag, day);
    judge(campaign, &written, &resolve, most, random, met)
}

/// The same of any rows, and of any resolver that goes with them.
///
/// # Errors
///
/// As [`tried`].
///
/// ```
/// use chronicle_trial::guarantee::{judge, Met, Written};
/// use chronicle_trial::{generate::Random, model, rows, sample};
///
/// let campaign = sample::worked();
/// let chronicle = model::chronicle(&campaign);
/// let mut written = Written {
///     nations: rows::nation_words(&chronicle.nations),
///     entries: rows::entry_words(&chronicle.nations),
///     changes: rows::change_words(&chronicle.changes),
///     bookings: vec![],
/// };
/// let asked = |day, tag| {
///     let found = model::resolve_at(&chronicle.nations, day, rows::tag_of_word(tag), day);
///     Ok(found.map(|found| found.words()))
/// };
/// let judged = |written: &Written| {
///     judge(&campaign, written, &asked, usize::MAX, &mut Random::new(1), &mut Met::default())
/// };
/// assert_eq!(judged(&written), Ok(()));
/// written.entries[1] = 1;
/// assert!(judged(&written).is_err());
/// ```
pub fn judge(
    campaign: &Campaign,
    written: &Written,
    resolve: Resolve<'_>,
    most: usize,
    random: &mut Random,
    met: &mut Met,
) -> Result<(), String> {
    let finished = Finished::of(campaign, written)?;
    for (day, nation) in pairs::of(&finished, most, random) {
        finished.nation_on(nation, day, resolve, met)?;
    }
    Ok(())
}
