//! What is hard about wars, and about who is meant by those who enter them.

use std::collections::BTreeSet;

use chronicle_trial::calendar::day_after;
use chronicle_trial::pack::{Campaign, War, WarEvent, NONE};
use chronicle_trial::rows::{Booking, Entry, Kind, Nation};

use super::Seen;

/// More nations' entries than this, for each that joins, are not gone through.
const MOST_ENTRIES: usize = 1_000;

impl Seen {
    /// Notes the hard cases of a campaign's wars with a list of nations and the bookings by it.
    ///
    /// ```
    /// use chronicle_trial::pack::{War, WarEvent};
    /// use chronicle_trial::{model, sample};
    /// use chronicle_oracle::seen::Seen;
    ///
    /// let mut campaign = sample::worked();
    /// let joins = WarEvent { date: 14480601, kind: 0, tag: *b"GBR" };
    /// campaign.wars.push(War { events: vec![joins] });
    /// let nations = model::chronicle(&campaign).nations;
    /// let mut seen = Seen::default();
    /// seen.wars(&campaign, &nations, &model::bookings(&campaign, &nations));
    /// assert_eq!(seen.times("war: joins on the day of a switch to the tag"), 1);
    /// assert!(seen.never().contains(&"war: a battle between two that join"));
    /// ```
    pub fn wars(&mut self, campaign: &Campaign, nations: &[Nation], bookings: &[Booking]) {
        self.rows_of_wars(campaign);
        self.if_any("war: nobody joins any", bookings.is_empty());
        let wars: BTreeSet<usize> = bookings.iter().map(|booking| booking.war).collect();
        self.if_any("war: two have rows", wars.len() > 1);
        let skipped = wars.last().is_some_and(|&last| wars.len() <= last);
        self.if_any("war: one without rows before one with rows", skipped);
        self.if_any("war: booked under another tag", bookings.iter().any(|b| b.tag != b.stored));
        if nations.iter().map(|nation| nation.entries.len()).sum::<usize>() <= MOST_ENTRIES {
            self.whom_they_mean(campaign, nations);
        }
    }

    fn rows_of_wars(&mut self, campaign: &Campaign) {
        let any = |test: fn(&War) -> bool| campaign.wars.iter().any(test);
        let joins = |test: &dyn Fn(&WarEvent) -> bool| joinings(campaign).any(test);
        self.if_any("war: a battle between two that join", any(|war| between(war, &[4])));
        self.if_any("war: a removal between two that join", any(|war| between(war, &[2, 3])));
        self.if_any("war: a tag joins twice", any(joins_twice));
        self.if_any("war: no event at all", any(|war| war.events.is_empty()));
        self.if_any("war: joins before the start", joins(&|event| event.date < campaign.start));
        self.if_any("war: joins on the start", joins(&|event| event.date == campaign.start));
        self.if_any("war: joins as ---", joins(&|event| event.tag == NONE));
    }

    fn whom_they_mean(&mut self, campaign: &Campaign, nations: &[Nation]) {
        let switches = |event: &WarEvent, when: &dyn Fn(&Entry) -> bool| {
            let mut entries = nations.iter().flat_map(|nation| &nation.entries);
            entries.any(|entry| entry.kind == Kind::Switch(event.tag) && when(entry))
        };
        let began = |event: &WarEvent| nations.iter().any(|n| n.initial == event.tag);
        let joins = |test: &dyn Fn(&WarEvent) -> bool| joinings(campaign).any(test);
        self.if_any(
            "war: joins under a tag of nobody",
            joins(&|event| !began(event) && !switches(event, &|_| true)),
        );
        self.if_any(
            "war: joins under a tag that is somebody's only later",
            joins(&|event| {
                !began(event)
                    && switches(event, &|entry| entry.date > event.date)
                    && !switches(event, &|entry| entry.date <= event.date)
            }),
        );
        self.if_any(
            "war: joins on the day of a switch to the tag",
            joins(&|event| switches(event, &|entry| entry.date == event.date)),
        );
        self.if_any(
            "war: joins the day before a switch to the tag",
            joins(&|event| switches(event, &|entry| Some(entry.date) == day_after(event.date))),
        );
        self.if_any(
            "war: joins after two switches to the tag",
            joins(&|event| {
                let till_then = |n: &Nation| {
                    let to = |e: &&Entry| e.kind == Kind::Switch(event.tag) && e.date <= event.date;
                    n.entries.iter().filter(to).count()
                };
                nations.iter().map(till_then).sum::<usize>() > 1
            }),
        );
    }
}

fn joinings(campaign: &Campaign) -> impl Iterator<Item = &WarEvent> {
    campaign.wars.iter().flat_map(|war| &war.events).filter(|event| event.kind < 2)
}

/// Whether an event of these kinds has one that joins before it and one behind it.
fn between(war: &War, kinds: &[u8]) -> bool {
    let joins = |event: &WarEvent| event.kind < 2;
    let first = war.events.iter().position(joins);
    let last = war.events.iter().rposition(joins);
    let within = first.zip(last).map_or(&[][..], |(first, last)| &war.events[first..last]);
    within.iter().any(|event| kinds.contains(&event.kind))
}

fn joins_twice(war: &War) -> bool {
    let joined: Vec<_> = war.events.iter().filter(|e| e.kind < 2).map(|e| e.tag).collect();
    joined.iter().collect::<BTreeSet<_>>().len() < joined.len()
}
