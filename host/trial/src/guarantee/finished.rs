//! The finished chronicle of a record, and what is guaranteed of a nation on a day (Rules 12.4).

use std::collections::{BTreeMap, BTreeSet};

use super::{Holding, Met, Premise, Resolve, Written};
use chronicle::rows::BOOKING_WORDS;

use crate::calendar::day_after;
use crate::model::nations_told;
use crate::pack::{Campaign, Date, Tag};
use crate::rows::{tag_word, Entry, Kind, Nation};

/// Somebody enters a war; bookings have a row for each, in this order.
#[derive(Clone, Copy, Debug)]
pub struct Joining {
    pub war: u32,
    pub date: Date,
    pub tag: Tag,
    pub attacks: bool,
}

/// Of a tag: the first nation that has it as first tag or target, and whether another has it too.
#[derive(Clone, Copy, Debug)]
pub struct Named {
    pub first: usize,
    pub others: bool,
}

/// What the rows written say.
pub struct Finished<'a> {
    pub campaign: &'a Campaign,
    pub nations: Vec<Nation>,
    pub joinings: Vec<Joining>,
    pub changed: BTreeSet<Date>,
    holding: Holding,
    named: BTreeMap<Tag, Named>,
    joined: BTreeMap<(Date, Tag), Vec<usize>>,
    bookings: &'a [[u32; BOOKING_WORDS]],
}

impl<'a> Finished<'a> {
    /// Reads the rows; `Err` says which are none, or not as many as there must be.
    pub fn of(campaign: &'a Campaign, written: &'a Written) -> Result<Finished<'a>, String> {
        let nations = nations_told(&written.nations, &written.entries);
        let nations = nations.ok_or("guarantee: the rows of nations are not well shaped")?;
        let changes = written.changes().ok_or("guarantee: the rows of changes are none")?;
        let holding = Holding::of(campaign, &changes).ok_or("guarantee: a change of no slot")?;
        let joinings = joinings(campaign);
        let (bookings, rest) = written.bookings.as_chunks();
        if (bookings.len(), rest.len()) != (joinings.len(), 0) {
            let (rows, joined) = (bookings.len(), joinings.len());
            return Err(format!("guarantee: {joined} join wars, and there are {rows} bookings"));
        }
        let mut joined: BTreeMap<_, Vec<usize>> = BTreeMap::new();
        for (row, joining) in joinings.iter().enumerate() {
            joined.entry((joining.date, joining.tag)).or_default().push(row);
        }
        Ok(Finished {
            campaign,
            holding,
            named: named(&nations),
            nations,
            joinings,
            joined,
            bookings,
            changed: changes.iter().map(|change| change.date).collect(),
        })
    }

    /// Whom a tag names, if anybody.
    pub fn named(&self, tag: Tag) -> Option<Named> {
        self.named.get(&tag).copied()
    }

    /// What is claimed of a nation on a day; `Err` says what of it does not hold.
    pub fn nation_on(
        &self,
        number: usize,
        day: Date,
        resolve: Resolve<'_>,
        met: &mut Met,
    ) -> Result<(), String> {
        let nation = &self.nations[number];
        let of = || format!("guarantee: {} on {day}", String::from_utf8_lossy(&nation.initial));
        self.living(nation, day, met).map_err(|error| format!("{}: {error}", of()))?;
        let worn = wears(nation, day);
        let joined = self.joined.get(&(day, worn)).map_or(&[][..], Vec::as_slice);
        let named = self.named(worn);
        let alone = named.is_some_and(|named| named.first == number && !named.others);
        met.add(if alone { Premise::Alone } else { Premise::NotAlone }, true);
        if !alone {
            met.add(Premise::NotAloneJoins, !joined.is_empty());
            return Ok(());
        }
        met.add(Premise::AloneSwitched, worn != nation.initial);
        met.add(Premise::AloneHoldingNothing, !self.holding.holds(nation.stored, day));
        let expected = [worn, nation.stored].map(tag_word);
        let found = resolve(day, expected[0]);
        if found != Ok(Some(expected)) {
            return Err(format!("{}: the resolver gives {found:?} and not {expected:?}", of()));
        }
        self.booked(nation, day, worn, joined, met).map_err(|error| format!("{}: {error}", of()))
    }

    /// The living equation.
    fn living(&self, nation: &Nation, day: Date, met: &mut Met) -> Result<(), String> {
        let start = self.campaign.start;
        let counted = |kind| {
            let within = |entry: &&Entry| entry.kind == kind && entry.date > start;
            nation.entries.iter().filter(within).filter(|entry| entry.date <= day).count()
        };
        let [appeared, annexed] = [Kind::Appeared, Kind::Annexed].map(counted);
        let [held, holds] = [start, day].map(|day| self.holding.holds(nation.stored, day));
        self.lives(nation, day, [held, holds, appeared > 0, annexed > 0], met);
        if usize::from(held) + appeared == usize::from(holds) + annexed {
            return Ok(());
        }
        let [held, holds] = [held, holds].map(u8::from);
        Err(format!("{held} + {appeared} Appeared - {annexed} Annexed is not {holds}"))
    }

    fn lives(
        &self,
        nation: &Nation,
        day: Date,
        [held, holds, appeared, annexed]: [bool; 4],
        met: &mut Met,
    ) {
        let start = self.campaign.start;
        let life = |entry: &Entry| !matches!(entry.kind, Kind::Switch(_));
        let early = |entry: &Entry| entry.kind == Kind::Annexed && entry.date <= start;
        met.add(Premise::NationOnADay, true);
        met.add(Premise::OnTheStart, day == start);
        met.add(Premise::HeldThenAndNow, held && holds);
        met.add(Premise::HeldThenOnly, held && !holds);
        met.add(Premise::HoldsNowOnly, !held && holds);
        met.add(Premise::HeldNeither, !held && !holds);
        met.add(Premise::Appeared, appeared);
        met.add(Premise::Annexed, annexed);
        met.add(Premise::BothCounted, appeared && annexed);
        met.add(Premise::AnnexedTooEarly, nation.entries.iter().any(early));
        let later = |entry: &Entry| entry.date > day && life(entry);
        met.add(Premise::LifeToCome, nation.entries.iter().any(later));
        met.add(Premise::ChangeThatDay, self.changed.contains(&day));
        met.add(Premise::SlotOfNobody, self.holding.any_free(day));
    }

    /// Each who joins a war that day under the tag that the nation wears is booked under its stored tag.
    fn booked(
        &self,
        nation: &Nation,
        day: Date,
        worn: Tag,
        joined: &[usize],
        met: &mut Met,
    ) -> Result<(), String> {
        for &row in joined {
            let joining = self.joinings[row];
            let expected = [joining.war, tag_word(worn), tag_word(nation.stored)];
            if self.bookings[row] != expected {
                let found = self.bookings[row];
                return Err(format!("booking {row} is {found:?} and not {expected:?}"));
            }
            let switches = |date: Option<Date>| {
                let switch = |e: &Entry| Some(e.date) == date && matches!(e.kind, Kind::Switch(_));
                nation.entries.iter().any(switch)
            };
            let attacks = joining.attacks;
            met.add(if attacks { Premise::AloneAttacks } else { Premise::AloneDefends }, true);
            met.add(Premise::AloneJoinsUnderOther, worn != nation.stored);
            met.add(Premise::AloneJoinsOnItsSwitch, switches(Some(day)));
            met.add(Premise::AloneJoinsBeforeItsSwitch, switches(day_after(day)));
        }
        met.add(Premise::AloneJoinsTwice, joined.len() > 1);
        Ok(())
    }
}

/// The target of the last switch up to the day, else the first tag.
pub fn wears(nation: &Nation, day: Date) -> Tag {
    let target = |entry: &Entry| match entry.kind {
        Kind::Switch(target) if entry.date <= day => Some(target),
        _ => None,
    };
    nation.entries.iter().rev().find_map(target).unwrap_or(nation.initial)
}

fn joinings(campaign: &Campaign) -> Vec<Joining> {
    let mut joinings = Vec::new();
    for (war, row) in (0..).zip(&campaign.wars) {
        for event in row.events.iter().filter(|event| event.kind < 2) {
            let attacks = event.kind == 0;
            joinings.push(Joining { war, date: event.date, tag: event.tag, attacks });
        }
    }
    joinings
}

fn named(nations: &[Nation]) -> BTreeMap<Tag, Named> {
    let mut named: BTreeMap<Tag, Named> = BTreeMap::new();
    for (number, nation) in nations.iter().enumerate() {
        let target = |entry: &Entry| match entry.kind {
            Kind::Switch(target) => Some(target),
            Kind::Appeared | Kind::Annexed => None,
        };
        let targets = nation.entries.iter().filter_map(target);
        for tag in targets.chain([nation.initial]) {
            let known = named.entry(tag).or_insert(Named { first: number, others: false });
            known.others |= known.first != number;
        }
    }
    named
}
