//! Which nations and days are looked at: all, or where these are too many some, those with a war
//! first.

use std::collections::BTreeSet;

use super::finished::{wears, Finished};
use crate::calendar::{day_after, day_before};
use crate::generate::{repeat, Random};
use crate::lists::some_of;
use crate::pack::Date;

/// At most so many pairs of a day and a nation's number, by day.
pub fn of(finished: &Finished<'_>, most: usize, random: &mut Random) -> Vec<(Date, usize)> {
    let nations = finished.nations.len();
    let days = days(finished);
    if days.len().saturating_mul(nations) <= most {
        return days
            .iter()
            .flat_map(|&day| (0..nations).map(move |nation| (day, nation)))
            .collect();
    }
    let [alone, war] = at_war(finished);
    let mut pairs = some_of(random, alone, most / 3);
    pairs.extend(some_of(random, war, most / 3));
    let rest = most - pairs.len();
    pairs.extend(repeat(rest, || (random.pick(&days), random.below(nations))));
    pairs.sort_unstable();
    pairs
}

/// Every day that an entry, a change or a war event names, and the start, each with its neighbours;
/// none before the start.
fn days(finished: &Finished<'_>) -> Vec<Date> {
    let entries = finished.nations.iter().flat_map(|nation| &nation.entries).map(|e| e.date);
    let wars = finished.campaign.wars.iter().flat_map(|war| &war.events).map(|e| e.date);
    let start = finished.campaign.start;
    let mut named: BTreeSet<Date> = finished.changed.clone();
    named.extend(entries.chain(wars).chain([start]));
    let around = |day| [day_before(day), Some(day), day_after(day)].into_iter().flatten();
    let days: BTreeSet<Date> = named.into_iter().flat_map(around).collect();
    days.range(start..).copied().collect()
}

/// The days on which somebody joins a war: with the nation that alone wears the tag then, and with
/// one that has the tag at some time, or shares it.
fn at_war(finished: &Finished<'_>) -> [Vec<(Date, usize)>; 2] {
    let [mut alone, mut others] = [Vec::new(), Vec::new()];
    for joining in &finished.joinings {
        let Some(named) = finished.named(joining.tag) else { continue };
        if joining.date < finished.campaign.start {
            continue;
        }
        let worn = wears(&finished.nations[named.first], joining.date) == joining.tag;
        let pairs = if worn && !named.others { &mut alone } else { &mut others };
        pairs.push((joining.date, named.first));
    }
    [alone, others]
}
