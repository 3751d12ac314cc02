//! Who holds each slot after the last change, counted a second time and in another way.
//!
//! Nothing is carried along from change to change here, and nothing is shared with [`crate::model`]: of each
//! slot only its last change counts, and whom that settles to is looked for among all switches.

use crate::pack::{Campaign, Country, Date, Tag, NONE};
use crate::rows::Change;

/// Whose a tag is that was given on a date: of the country which next gives that tag up, on that day or
/// later. With several on one day the first row wins; where nobody gives it up, it is the tag's own.
///
/// ```
/// use chronicle_trial::{recount::settled, sample};
///
/// let campaign = sample::worked();
/// assert_eq!(settled(&campaign, *b"ENG", 14480601), *b"GBR");
/// assert_eq!(settled(&campaign, *b"ENG", 14480602), *b"ENG");
/// ```
pub fn settled(campaign: &Campaign, tag: Tag, date: Date) -> Tag {
    let mut found: Option<(Date, Tag)> = None;
    for country in &campaign.countries {
        for switch in &country.switches {
            let sooner = found.is_none_or(|(first, _)| switch.date < first);
            if switch.from == tag && switch.date >= date && sooner {
                found = Some((switch.date, country.tag));
            }
        }
    }
    found.map_or(tag, |(_, country)| country)
}

/// Who holds a slot before any change: the last country that began with its tag, else nobody.
///
/// ```
/// use chronicle_trial::{recount::start_holder, sample};
///
/// assert_eq!(start_holder(&sample::worked(), 1), Some(*b"GBR"));
/// assert_eq!(start_holder(&sample::worked(), 0), None);
/// ```
pub fn start_holder(campaign: &Campaign, slot: u16) -> Option<Tag> {
    let province = campaign.provinces.iter().find(|province| province.id == slot);
    let tag = province.map_or(NONE, |province| province.owner);
    campaign.countries.iter().rev().find(|country| began(country) == tag).map(|country| country.tag)
}

/// The holder of each slot after the last of these changes, which are in their order.
///
/// ```
/// use chronicle_trial::{model, recount::holders, sample};
///
/// let campaign = sample::worked();
/// let found = holders(&campaign, &model::changes(&campaign));
/// assert_eq!(found, [None, Some(*b"FRA"), Some(*b"GBR")]);
/// ```
pub fn holders(campaign: &Campaign, changes: &[Change]) -> Vec<Option<Tag>> {
    let mut last: Vec<Option<&Change>> = vec![None; campaign.provinces.len() + 1];
    changes.iter().for_each(|change| last[usize::from(change.id)] = Some(change));
    let holder = |(slot, change): (u16, Option<&Change>)| match change {
        Some(change) => Some(settled(campaign, change.to, change.date)),
        None => start_holder(campaign, slot),
    };
    (0..).zip(last).map(holder).collect()
}

/// How many of the slots each country holds, in row order.
///
/// ```
/// use chronicle_trial::{recount::held, sample};
///
/// assert_eq!(held(&sample::worked(), &[None, Some(*b"FRA"), Some(*b"FRA")]), [0, 2]);
/// ```
pub fn held(campaign: &Campaign, holders: &[Option<Tag>]) -> Vec<usize> {
    let slots = |country: &Country| holders.iter().filter(|&&h| h == Some(country.tag)).count();
    campaign.countries.iter().map(slots).collect()
}

fn began(country: &Country) -> Tag {
    match (country.switches.first(), country.previous_tags.first()) {
        (Some(switch), _) => switch.from,
        (None, Some(&tag)) => tag,
        (None, None) => country.tag,
    }
}
