//! Tags that nobody shares.

use std::collections::BTreeSet;

use chronicle::layout::LIMITS;

use super::at_war;
use crate::generate::{sized, Random, TAG_BYTES};
use crate::pack::{Campaign, Tag, NONE};

/// No two countries ever have the same tag, so that whoever wears one wears it alone.
pub fn own_tags() -> Campaign {
    let mut campaign = sized(&LIMITS, 2);
    let taken: BTreeSet<Tag> = campaign.countries.iter().map(|country| country.tag).collect();
    let mut free = every_tag().filter(|tag| *tag != NONE && !taken.contains(tag));
    for country in &mut campaign.countries {
        country.previous_tags.iter_mut().zip(&mut free).for_each(|(tag, own)| *tag = own);
        country.switches.iter_mut().zip(&mut free).for_each(|(switch, own)| switch.from = own);
    }
    let mut random = Random::new(11);
    for province in &mut campaign.provinces {
        let mut owner = || {
            let country = &campaign.countries[random.below(campaign.countries.len())];
            let switch = country.switches.get(random.below(4));
            switch.map_or(country.tag, |switch| switch.from)
        };
        province.owner = owner();
        province.events.iter_mut().for_each(|event| event.tag = owner());
    }
    at_war(campaign)
}

/// Every tag that there is.
fn every_tag() -> impl Iterator<Item = Tag> {
    let bytes = || TAG_BYTES.iter().rev().copied();
    bytes().flat_map(move |a| bytes().flat_map(move |b| bytes().map(move |c| [a, b, c])))
}
