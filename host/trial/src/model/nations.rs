//! Nations (Rules 4).

use std::collections::{BTreeMap, BTreeSet};

use super::changes;
use crate::pack::{Campaign, Country, Date, Tag, NONE};
use crate::rows::{Change, Entry, Kind, Nation};

/// What `nation_events` answers, and what it fills beside.
#[derive(Clone, Debug, PartialEq, Eq)]
pub struct Chronicle {
    /// The owner changes, in their order.
    pub changes: Vec<Change>,
    /// The listed nations by initial, with their entries.
    pub nations: Vec<Nation>,
    /// Who holds each of the slots 0 to P after the last change.
    pub holders: Vec<Option<Tag>>,
    /// How many slots each country holds then, in row order.
    pub held: Vec<usize>,
}

/// Works out the nations of a campaign.
///
/// ```
/// use chronicle_trial::{model::chronicle, sample};
///
/// let worked = chronicle(&sample::worked());
/// assert_eq!(worked.nations[0].stored, *b"GBR");
/// assert_eq!(worked.holders, [None, Some(*b"FRA"), Some(*b"GBR")]);
/// assert_eq!(worked.held, [1, 1]);
/// ```
pub fn chronicle(campaign: &Campaign) -> Chronicle {
    let changes = changes(campaign);
    let mapped = mapped(campaign);
    let mut course = Course::start(campaign, &mapped);
    let switches = Switches::of(campaign);
    for change in &changes {
        course.apply(change, switches.settle(change), campaign.start);
    }
    Chronicle {
        nations: listed(campaign, &mapped, &course),
        held: campaign.countries.iter().map(|country| course.slots_of(country.tag)).collect(),
        holders: course.holders,
        changes,
    }
}

/// The first switch's `from`, else the first previous tag, else the country's own.
fn initial(country: &Country) -> Tag {
    let switched = country.switches.first().map(|switch| switch.from);
    switched.or(country.previous_tags.first().copied()).unwrap_or(country.tag)
}

/// A switch leads to the next one's `from`; the last of n leads to entry n (from 0) of the
/// previous tags, else to the country's own tag.
fn switch_entries(country: &Country) -> Vec<Entry> {
    let count = country.switches.len();
    let last = country.previous_tags.get(count).copied().unwrap_or(country.tag);
    let target = |next: usize| country.switches.get(next).map_or(last, |switch| switch.from);
    let entry = |(number, date)| Entry { date, kind: Kind::Switch(target(number + 1)) };
    country.switches.iter().map(|switch| switch.date).enumerate().map(entry).collect()
}

/// Each initial with the number of the last country row that has it.
fn mapped(campaign: &Campaign) -> BTreeMap<Tag, usize> {
    campaign.countries.iter().enumerate().map(|(row, country)| (initial(country), row)).collect()
}

/// The switches of all countries by the tag given up, each list by date, ties in row order.
struct Switches(BTreeMap<Tag, Vec<(Date, Tag)>>);

impl Switches {
    fn of(campaign: &Campaign) -> Switches {
        let mut lists: BTreeMap<Tag, Vec<(Date, Tag)>> = BTreeMap::new();
        for country in &campaign.countries {
            for switch in &country.switches {
                lists.entry(switch.from).or_default().push((switch.date, country.tag));
            }
        }
        lists.values_mut().for_each(|list| list.sort_by_key(|&(date, _)| date));
        Switches(lists)
    }

    /// The country of the first switch from the new tag dated not before the change, else the
    /// new tag itself.
    fn settle(&self, change: &Change) -> Tag {
        let list = self.0.get(&change.to).map_or(&[][..], Vec::as_slice);
        let first = list.partition_point(|&(date, _)| date < change.date);
        list.get(first).map_or(change.to, |&(_, country)| country)
    }
}

/// Who holds each slot by now, who ever did, and what befell whom on the way.
struct Course {
    holders: Vec<Option<Tag>>,
    ever: BTreeSet<Tag>,
    fates: BTreeMap<Tag, Vec<Entry>>,
}

impl Course {
    /// Before the first change: each slot belongs to whom the map of initials names for its owner, if anyone.
    fn start(campaign: &Campaign, mapped: &BTreeMap<Tag, usize>) -> Course {
        let mut owners = vec![NONE; campaign.provinces.len() + 1];
        for province in &campaign.provinces {
            owners[usize::from(province.id)] = province.owner;
        }
        let holder = |owner: &Tag| mapped.get(owner).map(|&row| campaign.countries[row].tag);
        let holders: Vec<Option<Tag>> = owners.iter().map(holder).collect();
        Course {
            ever: holders.iter().copied().flatten().collect(),
            holders,
            fates: BTreeMap::new(),
        }
    }

    /// The old holder gives the slot up before the new one takes it, also where both are one.
    fn apply(&mut self, change: &Change, new: Tag, start: Date) {
        let slot = usize::from(change.id);
        if let Some(old) = self.holders[slot].take() {
            if !self.holds_any(old) {
                self.befell(old, change.date, Kind::Annexed);
            }
        }
        if !self.holds_any(new) && change.date > start {
            self.befell(new, change.date, Kind::Appeared);
        }
        self.holders[slot] = Some(new);
        self.ever.insert(new);
    }

    fn befell(&mut self, tag: Tag, date: Date, kind: Kind) {
        self.fates.entry(tag).or_default().push(Entry { date, kind });
    }

    fn holds_any(&self, tag: Tag) -> bool {
        self.holders.contains(&Some(tag))
    }

    fn slots_of(&self, tag: Tag) -> usize {
        self.holders.iter().filter(|&&holder| holder == Some(tag)).count()
    }
}

/// Each mapped country that ever held a slot, by the bytes of its initial.
fn listed(campaign: &Campaign, mapped: &BTreeMap<Tag, usize>, course: &Course) -> Vec<Nation> {
    let countries = mapped.values().map(|&row| &campaign.countries[row]);
    countries.filter(|c| course.ever.contains(&c.tag)).map(|c| nation(c, course)).collect()
}

/// Switches first, then the rest, by date with ties kept; the last switch of that order says what
/// the nation is called now.
fn nation(country: &Country, course: &Course) -> Nation {
    let mut entries = switch_entries(country);
    entries.extend(course.fates.get(&country.tag).into_iter().flatten());
    entries.sort_by_key(|entry| entry.date);
    let initial = initial(country);
    let target = |entry: &Entry| match entry.kind {
        Kind::Switch(target) => Some(target),
        Kind::Appeared | Kind::Annexed => None,
    };
    let latest = entries.iter().rev().find_map(target).unwrap_or(initial);
    Nation { initial, latest, stored: country.tag, entries }
}

#[cfg(test)]
mod tests {
    use super::*;
    use crate::pack::{OwnerEvent, Province, Switch};
    use crate::sample;

    fn entries(campaign: &Campaign, stored: &Tag) -> Vec<Entry> {
        let nations = chronicle(campaign).nations;
        nations.into_iter().find(|nation| nation.stored == *stored).unwrap().entries
    }

    #[test]
    fn worked_record_is_annexed_appears_and_switches() {
        let expected = [
            Entry { date: 14460101, kind: Kind::Annexed },
            Entry { date: 14470101, kind: Kind::Appeared },
            Entry { date: 14480601, kind: Kind::Switch(*b"GBR") },
        ];
        assert_eq!(entries(&sample::worked(), b"GBR"), expected);
        assert_eq!(entries(&sample::worked(), b"FRA"), []);
    }

    /// Both tags are stored under GBR, and the slot still changes hands.
    #[test]
    fn only_slot_passing_to_its_own_holder() {
        let mut campaign = sample::worked();
        campaign.provinces.truncate(1);
        campaign.provinces[0].events = vec![OwnerEvent { date: 14470101, tag: *b"GBR" }];
        let on_that_day = [Kind::Annexed, Kind::Appeared].map(|kind| (14470101, kind));
        let found: Vec<_> = entries(&campaign, b"GBR").iter().map(|e| (e.date, e.kind)).collect();
        assert_eq!(found[..2], on_that_day);
    }

    /// A change is settled by switches, never by the map of initials.
    #[test]
    fn change_to_an_initial_without_a_later_switch() {
        let mut campaign = sample::worked();
        campaign.provinces[1].events[0].date = 14480602;
        assert_eq!(chronicle(&campaign).holders, [None, Some(*b"FRA"), Some(*b"ENG")]);
        campaign.provinces[1].events[0].date = 14480601;
        assert_eq!(chronicle(&campaign).holders, [None, Some(*b"FRA"), Some(*b"GBR")]);
    }

    #[test]
    fn last_target_is_the_previous_tag_numbered_by_the_switches() {
        let switch = |date, from: &Tag| Switch { date, from: *from };
        let mut country = Country {
            tag: *b"GBR",
            previous_tags: vec![*b"AAA", *b"BBB", *b"CCC"],
            switches: vec![switch(14500101, b"TYR"), switch(14450101, b"IRE")],
            ..Country::default()
        };
        let targets = |country: &Country| -> Vec<Kind> {
            switch_entries(country).iter().map(|entry| entry.kind).collect()
        };
        assert_eq!(targets(&country), [Kind::Switch(*b"IRE"), Kind::Switch(*b"CCC")]);
        country.previous_tags.pop();
        assert_eq!(targets(&country), [Kind::Switch(*b"IRE"), Kind::Switch(*b"GBR")]);
        assert_eq!(initial(&country), *b"TYR");
        country.switches.clear();
        assert_eq!(initial(&country), *b"AAA");
    }

    #[test]
    fn slot_without_a_province_is_held_by_the_country_that_began_as_nobody() {
        let mut campaign = sample::worked();
        campaign.countries[1].previous_tags = vec![NONE];
        campaign.provinces = vec![Province { id: 0, owner: *b"ENG", events: vec![] }];
        assert_eq!(chronicle(&campaign).holders, [Some(*b"GBR"), Some(*b"FRA")]);
        assert_eq!(chronicle(&campaign).held, [1, 1]);
    }
}
