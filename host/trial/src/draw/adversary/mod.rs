//! Small campaigns that are hard to agree about: few tags, few dates, and everything meets.
//!
//! Every campaign drawn here is one whose record is accepted, and its strings are UTF-8; players that
//! are added to it may have other names.

pub mod ledgers;
pub mod players;
mod pools;
pub mod selections;

use std::collections::BTreeSet;

use crate::calendar::{day_after, day_before, ENDS};
use crate::generate::{draw_date, repeat, Random};
use crate::pack::{Campaign, Date, Tag, NONE};
use pools::Pools;

/// The next campaign.
///
/// ```
/// use chronicle_trial::{adversary, generate::Random, pack::pack, reference};
///
/// let mut random = Random::new(1);
/// for _ in 0..100 {
///     let campaign = adversary::draw(&mut random);
///     assert_eq!(reference::refusal_number(&pack(&campaign)), 0);
/// }
/// ```
pub fn draw(random: &mut Random) -> Campaign {
    let pools = Pools::draw(random);
    Campaign {
        wars: pools.wars(random),
        ledger: pools.ledger(random),
        strings: pools.strings(random),
        ..draw_core(random, &pools)
    }
}

/// As [`draw`], with countries and provinces and nothing else.
///
/// ```
/// use chronicle_trial::{adversary, generate::Random};
///
/// assert!(adversary::draw_bare(&mut Random::new(1)).wars.is_empty());
/// ```
pub fn draw_bare(random: &mut Random) -> Campaign {
    let pools = Pools::draw(random);
    draw_core(random, &pools)
}

fn draw_core(random: &mut Random, pools: &Pools) -> Campaign {
    let countries = pools.countries(random);
    let provinces = pools.provinces(random, &countries);
    Campaign {
        flags: random.byte() & 3,
        start: pools.start,
        current: pools.current,
        countries,
        provinces,
        ..Campaign::default()
    }
}

/// The days worth asking about: all that occur, their neighbours, the ends of the calendar and
/// two at random.
///
/// ```
/// use chronicle_trial::{adversary::days_of, generate::Random, sample};
///
/// let days = days_of(&mut Random::new(1), &sample::worked());
/// assert!([14460101, 14451231, 14460102, 14480601].iter().all(|day| days.contains(day)));
/// ```
pub fn days_of(random: &mut Random, campaign: &Campaign) -> Vec<Date> {
    let switches = campaign.countries.iter().flat_map(|c| &c.switches).map(|s| s.date);
    let events = campaign.provinces.iter().flat_map(|p| &p.events).map(|e| e.date);
    let wars = campaign.wars.iter().flat_map(|w| &w.events).map(|e| e.date);
    let occurring = switches.chain(events).chain(wars).chain([campaign.start, campaign.current]);
    let around = |day| [Some(day), day_after(day), day_before(day)].into_iter().flatten();
    let mut days: BTreeSet<Date> = occurring.flat_map(around).chain(ENDS).collect();
    days.extend(repeat(2, || draw_date(random)));
    days.into_iter().collect()
}

/// The tags worth asking about: all that occur, and one that does not.
///
/// ```
/// use chronicle_trial::{adversary::tags_of, sample};
///
/// assert_eq!(tags_of(&sample::worked()), [*b"---", *b"ENG", *b"FRA", *b"GBR", *b"QQQ"]);
/// ```
pub fn tags_of(campaign: &Campaign) -> Vec<Tag> {
    let mut tags = BTreeSet::from([NONE, *b"QQQ"]);
    for country in &campaign.countries {
        tags.insert(country.tag);
        tags.extend(&country.previous_tags);
        tags.extend(country.switches.iter().map(|switch| switch.from));
    }
    for province in &campaign.provinces {
        tags.insert(province.owner);
        tags.extend(province.events.iter().map(|event| event.tag));
    }
    tags.extend(campaign.wars.iter().flat_map(|w| &w.events).map(|event| event.tag));
    tags.into_iter().collect()
}

#[cfg(test)]
mod tests {
    use super::*;
    use crate::pack::pack;
    use crate::reference::refusal_number;

    #[test]
    fn drawn_campaigns_are_accepted_and_their_strings_are_texts() {
        let mut random = Random::new(2);
        for round in 0..5_000 {
            let campaign = draw(&mut random);
            assert_eq!(refusal_number(&pack(&campaign)), 0, "round {round}");
            assert!(campaign.strings.iter().all(|text| std::str::from_utf8(text).is_ok()));
        }
    }
}
