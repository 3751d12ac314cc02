//! Owner changes (Rules 3).

use crate::pack::{Campaign, Date, Province};
use crate::rows::{Change, Run};

/// The changes of all provinces, by date, then id, ties in entry order.
///
/// ```
/// use chronicle_trial::{model::changes, sample};
///
/// let changes = changes(&sample::worked());
/// assert_eq!(changes.iter().map(|c| (c.date, c.id)).collect::<Vec<_>>(), [
///     (14460101, 1),
///     (14470101, 2),
/// ]);
/// ```
pub fn changes(campaign: &Campaign) -> Vec<Change> {
    let mut changes: Vec<Change> = campaign.provinces.iter().flat_map(of_province).collect();
    changes.sort_by_key(|change| (change.date, change.id));
    changes
}

/// The events, in record order, that differ from what the slot has by then.
fn of_province(province: &Province) -> Vec<Change> {
    let mut slot = province.owner;
    let mut changes = Vec::new();
    for event in &province.events {
        if event.tag != slot {
            let (date, id) = (event.date, province.id);
            changes.push(Change { date, id, from: slot, to: event.tag });
            slot = event.tag;
        }
    }
    changes
}

/// Where the changes of this date begin, or would begin, and their number.
///
/// ```
/// use chronicle_trial::{model::{changes, events_on}, rows::Run, sample};
///
/// let changes = changes(&sample::worked());
/// assert_eq!(events_on(&changes, 14470101), Run { first: 1, count: 1 });
/// assert_eq!(events_on(&changes, 14470102), Run { first: 2, count: 0 });
/// ```
pub fn events_on(changes: &[Change], date: Date) -> Run {
    Run {
        first: changes.iter().filter(|change| change.date < date).count(),
        count: changes.iter().filter(|change| change.date == date).count(),
    }
}
