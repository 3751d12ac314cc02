//! Orders in which the changes of one province may come, each disliked by some sort.

use chronicle_trial::extremes::{in_order, owners, rising};
use chronicle_trial::generate::{counts_of, sized, Random};
use chronicle_trial::pack::{Campaign, Date, OwnerEvent};

/// A name, and so many ranks in that order.
pub type Order = (&'static str, fn(usize) -> Vec<usize>);

/// Rising, falling, in runs, and out of order.
pub const ALL: [Order; 11] = [
    ("rising", |n| (0..n).collect()),
    ("falling", |n| (0..n).rev().collect()),
    ("one day", |n| vec![0; n]),
    ("two runs", |n| runs(n, 2)),
    ("ten runs", |n| runs(n, 10)),
    ("ten falling runs", |n| runs(n, 10).into_iter().rev().collect()),
    ("a hundred runs", |n| runs(n, 100)),
    ("a thousand runs", |n| runs(n, 1000)),
    ("up and down", |n| (0..n / 2).chain((n / 2..n).rev()).collect()),
    ("turns that are not seen", unseen_turns),
    ("shuffled", shuffled),
];

/// So many runs that all span the whole: the first ranks of each run, then the second of each.
fn runs(n: usize, count: usize) -> Vec<usize> {
    (0..count).flat_map(|run| (run..n).step_by(count)).collect()
}

fn shuffled(n: usize) -> Vec<usize> {
    let mut random = Random::new(3);
    let mut ranks: Vec<usize> = (0..n).collect();
    for last in (1..n).rev() {
        let places: Vec<usize> = vec![last, last / 2, last / 3, last / 5, 0];
        ranks.swap(last, random.pick(&places));
    }
    ranks
}

/// The sort looks for turns at every 31st rank, with the two before it. Here these rise, and all else is shuffled: so
/// halves are merged where the ranks had better be spread first.
fn unseen_turns(n: usize) -> Vec<usize> {
    let mut ranks = shuffled(n);
    for first in (0..n.saturating_sub(2)).step_by(31) {
        ranks[first..first + 3].sort_unstable();
    }
    ranks
}

/// One province with an event for each rank, every one a change.
pub fn one_province(ranks: &[usize]) -> Campaign {
    let mut campaign = in_order(owners(ranks.len(), 1));
    let turns = [campaign.countries[1].tag, campaign.countries[0].tag];
    campaign.provinces.truncate(1);
    campaign.provinces[0].owner = turns[1];
    campaign.provinces[0].events = ranks
        .iter()
        .enumerate()
        .map(|(at, rank)| OwnerEvent { date: nth_day(*rank), tag: turns[at % 2] })
        .collect();
    campaign
}

/// Ten days, and one event as early and one as late as can be: the leading bits of the sort's keys tell the days
/// apart, and hardly the provinces.
pub fn few_days(mut campaign: Campaign) -> Campaign {
    let mut events: Vec<&mut OwnerEvent> =
        campaign.provinces.iter_mut().flat_map(|province| &mut province.events).collect();
    events.iter_mut().enumerate().for_each(|(at, event)| event.date = nth_day(at % 10 * 1_000));
    let last = events.len() - 1;
    (events[0].date, events[last].date) = (10_101, 99_991_231);
    campaign
}

/// A record of the size that games leave, events by date within each province.
pub fn game() -> Campaign {
    rising(sized(&counts_of(&[('C', 800), ('P', 4_000), ('B', 40), ('E', 15_000)]), 1))
}

/// Days one behind the other, 28 to a month.
fn nth_day(number: usize) -> Date {
    let (month, day) = (number / 28, number % 28);
    ((1445 + month / 12) * 10_000 + (month % 12 + 1) * 100 + day + 1) as Date
}
