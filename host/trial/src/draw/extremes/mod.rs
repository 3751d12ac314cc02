//! Campaigns at the limits (Rules 1.4), each with a shape that somebody's algorithm may dislike.

mod ledgers;
pub mod pages;
mod tags;

pub use ledgers::{in_ledgers, overlong, yearly, OVERLONG_WORDS};

use chronicle::layout::LIMITS;

use crate::generate::{at_limits, counts_of, sized, Random};
use crate::pack::{Campaign, Date, OwnerEvent, Switch, Tag, NONE};
use crate::wars;
use tags::own_tags;

/// The day everything happens on, where it is one day; it lies after every start drawn here.
const ONE_DAY: Date = 99991231;

/// A name and the campaign that has it, made when asked for: they are large.
pub type Extreme = (&'static str, fn() -> Campaign);

/// The eleven of them.
///
/// ```
/// use chronicle_trial::{extremes, pack::pack, reference::refusal_number};
///
/// assert_eq!(refusal_number(&pack(&(extremes::ALL[9].1)())), 0);
/// ```
pub const ALL: [Extreme; 11] = [
    ("everything at its limit", at_limits),
    ("everything at its limit, each country under tags of its own", own_tags),
    ("all events in one province", || whole(all_in_one_province())),
    ("everything on one day", || whole(on_one_day())),
    ("all dates falling", || whole(falling())),
    ("two owners by turns", || whole(by_turns())),
    ("one country with all switches, from one tag", || whole(late_changes(20_000))),
    ("all countries began alike", || whole(began_alike())),
    ("provinces in reverse, dates rising", || whole(reversed(rising(nations(8))))),
    ("four tags and ten dates", || whole(few_tags())),
    ("one country with all switches, by turns under four tags", || {
        in_ledgers(switching(20_000, 4))
    }),
];

fn whole(campaign: Campaign) -> Campaign {
    in_ledgers(at_war(campaign))
}

/// The same campaign with as many wars as there may be, about its switches.
///
/// ```
/// use chronicle_trial::extremes::{at_war, nations};
///
/// assert_eq!(at_war(nations(1)).wars.len(), 5_000);
/// ```
pub fn at_war(mut campaign: Campaign) -> Campaign {
    let each = LIMITS.war_events / LIMITS.wars;
    campaign.wars = wars::draw(&mut Random::new(10), &campaign, LIMITS.wars, each);
    campaign
}

/// A draw at the limits that owner changes and nations have.
///
/// ```
/// use chronicle_trial::extremes::nations;
///
/// assert_eq!(nations(1).countries.len(), 2_000);
/// ```
pub fn nations(seed: u64) -> Campaign {
    let counts = [('C', 2_000), ('P', 8_000), ('A', 20_000), ('B', 20_000), ('E', 60_000)];
    sized(&counts_of(&counts), seed)
}

/// As many owner events in a record that has countries and provinces and nothing else.
///
/// ```
/// use chronicle_trial::extremes::owners;
///
/// assert_eq!(owners(60_000, 1).provinces.len(), 8_000);
/// ```
pub fn owners(events: usize, seed: u64) -> Campaign {
    sized(&counts_of(&[('C', 2_000), ('P', 8_000), ('E', events)]), seed)
}

/// One country gave up one tag so many times, day by day, and every second change of a province is
/// to that tag, after nearly all of the switches: who goes through them from the first on takes
/// very long.
///
/// ```
/// use chronicle_trial::extremes::late_changes;
///
/// assert_eq!(late_changes(100).countries[7].switches.len(), 100);
/// ```
pub fn late_changes(switches: usize) -> Campaign {
    let mut campaign = nations(6);
    let from = campaign.countries[8].tag;
    campaign.start = 14441111;
    campaign.current = 99991231;
    campaign.countries.iter_mut().for_each(|country| country.switches.clear());
    campaign.countries[7].switches =
        (0..switches).map(|number| Switch { date: nth_day(number), from }).collect();
    let late = switches.saturating_sub(10);
    for (number, province) in campaign.provinces.iter_mut().enumerate() {
        let turns = [from, province.owner];
        for (at, event) in province.events.iter_mut().enumerate() {
            *event = OwnerEvent { date: nth_day(late + (number + at) % 5), tag: turns[at % 2] };
        }
    }
    campaign
}

/// One country went by turns by so many tags that nobody else has, at most nine, switched so often,
/// day by day, and is at war under them: who keeps its history once for each of its switches needs
/// very much memory.
///
/// ```
/// use chronicle_trial::{extremes::switching, model};
///
/// let nations = model::chronicle(&switching(300, 2)).nations;
/// assert!(nations.iter().any(|nation| nation.entries.len() >= 300));
/// ```
pub fn switching(switches: usize, tags: usize) -> Campaign {
    let mut campaign = nations(10);
    let worn: Vec<Tag> = (b'1'..=b'9').map(|digit| [b'-', b'-', digit]).take(tags).collect();
    campaign.start = 14441111;
    campaign.current = ONE_DAY;
    campaign.countries.iter_mut().for_each(|country| country.switches.clear());
    campaign.countries[7].switches = (0..switches)
        .map(|number| Switch { date: nth_day(number), from: worn[number % worn.len()] })
        .collect();
    campaign.provinces[0].owner = worn[0];
    at_war(campaign)
}

/// Days one behind the other, 28 to a month.
fn nth_day(number: usize) -> Date {
    let (month, day) = (number / 28, number % 28);
    ((1445 + month / 12) * 10_000 + (month % 12 + 1) * 100 + day + 1) as Date
}

/// The same campaign with ids in row order, from 1.
///
/// ```
/// use chronicle_trial::extremes::{in_order, nations};
///
/// assert_eq!(in_order(nations(1)).provinces[0].id, 1);
/// ```
pub fn in_order(mut campaign: Campaign) -> Campaign {
    for (province, id) in campaign.provinces.iter_mut().zip(1..) {
        province.id = id;
    }
    campaign
}

/// The same campaign with ids in row order, from the largest down.
///
/// ```
/// use chronicle_trial::extremes::{nations, reversed};
///
/// assert_eq!(reversed(nations(1)).provinces[0].id, 8_000);
/// ```
pub fn reversed(campaign: Campaign) -> Campaign {
    let mut campaign = in_order(campaign);
    let last = campaign.provinces.len() as u16;
    campaign.provinces.iter_mut().for_each(|province| province.id = last + 1 - province.id);
    campaign
}

/// The same campaign with every province's events by date, as a game writes them.
///
/// ```
/// use chronicle_trial::extremes::{nations, rising};
///
/// assert!(rising(nations(1)).provinces[0].events.is_sorted_by_key(|event| event.date));
/// ```
pub fn rising(mut campaign: Campaign) -> Campaign {
    for province in &mut campaign.provinces {
        province.events.sort_by_key(|event| event.date);
    }
    campaign
}

fn all_in_one_province() -> Campaign {
    let mut campaign = nations(2);
    let rows = campaign.provinces.iter_mut();
    let events = rows.flat_map(|province| std::mem::take(&mut province.events)).collect();
    campaign.provinces[4_321].events = events;
    campaign
}

fn on_one_day() -> Campaign {
    let mut campaign = nations(3);
    for event in campaign.provinces.iter_mut().flat_map(|province| &mut province.events) {
        event.date = ONE_DAY;
    }
    for switch in campaign.countries.iter_mut().flat_map(|country| &mut country.switches) {
        switch.date = ONE_DAY;
    }
    campaign
}

fn falling() -> Campaign {
    let mut campaign = rising(nations(4));
    campaign.provinces.iter_mut().for_each(|province| province.events.reverse());
    for country in &mut campaign.countries {
        country.switches.sort_by_key(|switch| std::cmp::Reverse(switch.date));
    }
    campaign
}

/// Every event is a change, so that the changes are as many as there can be.
fn by_turns() -> Campaign {
    let mut campaign = nations(5);
    let pair = [campaign.countries[0].tag, campaign.countries[1].tag];
    for province in &mut campaign.provinces {
        province.owner = pair[0];
        for (at, event) in province.events.iter_mut().enumerate() {
            event.tag = pair[(at + 1) % 2];
        }
    }
    campaign
}

fn began_alike() -> Campaign {
    let mut campaign = nations(7);
    let tag = campaign.countries[3].tag;
    for switch in campaign.countries.iter_mut().filter_map(|c| c.switches.first_mut()) {
        switch.from = tag;
    }
    campaign
}

fn few_tags() -> Campaign {
    let mut campaign = nations(9);
    let own = |row: usize| campaign.countries[row].tag;
    let tags = [NONE, own(0), own(1), own(2)];
    let dates: Vec<Date> = (1..=10).map(|day| 14450100 + day).collect();
    campaign.start = dates[2];
    campaign.current = dates[9];
    redraw(&mut campaign, &tags, &dates);
    campaign
}

fn redraw(campaign: &mut Campaign, tags: &[Tag], dates: &[Date]) {
    let mut random = Random::new(9);
    for switch in campaign.countries.iter_mut().flat_map(|country| &mut country.switches) {
        *switch = Switch { date: random.pick(dates), from: random.pick(tags) };
    }
    for province in &mut campaign.provinces {
        province.owner = random.pick(tags);
        for event in &mut province.events {
            *event = OwnerEvent { date: random.pick(dates), tag: random.pick(tags) };
        }
    }
}

#[cfg(test)]
mod tests {
    use chronicle::layout::Counts;

    use super::*;
    use crate::pack::pack;
    use crate::reference::refusal_number;

    #[test]
    fn all_are_accepted_and_at_the_limits() {
        for (name, campaign) in ALL {
            let record = pack(&campaign());
            assert_eq!(refusal_number(&record), 0, "{name}");
            let counts = Counts::read(record.first_chunk().unwrap());
            assert_eq!((counts.countries, counts.provinces), (2_000, 8_000), "{name}");
            assert_eq!((counts.switches, counts.owner_events), (20_000, 60_000), "{name}");
            assert_eq!((counts.wars, counts.war_events), (5_000, 100_000), "{name}");
            assert_eq!((counts.ledger_names, counts.points), (2_000, 1_000_000), "{name}");
        }
    }
}
