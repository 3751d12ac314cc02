//! Who holds slots on a day: of each slot only its last change up to that day is read.

use crate::pack::{Campaign, Date, Tag};
use crate::recount::start_holder;
use crate::rows::Change;

/// Each slot's start holder, and whom its changes settle to, in their order.
#[derive(Debug)]
pub struct Holding {
    slots: Vec<Slot>,
}

#[derive(Debug)]
struct Slot {
    start: Option<Tag>,
    moves: Vec<(Date, Tag)>,
}

impl Slot {
    fn holder(&self, day: Date) -> Option<Tag> {
        let last = self.moves.iter().rev().find(|(date, _)| *date <= day);
        last.map(|&(_, holder)| holder).or(self.start)
    }
}

impl Holding {
    /// From the start slots and these changes; none if a change is of a slot that is not there.
    ///
    /// ```
    /// use chronicle_trial::{guarantee::Holding, model, sample};
    ///
    /// let campaign = sample::worked();
    /// let holding = Holding::of(&campaign, &model::changes(&campaign)).unwrap();
    /// let held = [14451231, 14460101, 14470101].map(|day| holding.holds(*b"GBR", day));
    /// assert_eq!(held, [true, false, true]);
    /// ```
    pub fn of(campaign: &Campaign, changes: &[Change]) -> Option<Holding> {
        let switches = Switches::of(campaign);
        let last = campaign.provinces.len() as u16;
        let slot = |id| Slot { start: start_holder(campaign, id), moves: Vec::new() };
        let mut slots: Vec<Slot> = (0..=last).map(slot).collect();
        for change in changes {
            let moves = &mut slots.get_mut(usize::from(change.id))?.moves;
            moves.push((change.date, switches.settled(change.to, change.date)));
        }
        Some(Holding { slots })
    }

    /// Whether a tag holds any slot on a day.
    ///
    /// ```
    /// use chronicle_trial::{guarantee::Holding, sample};
    ///
    /// let holding = Holding::of(&sample::worked(), &[]).unwrap();
    /// assert!(holding.holds(*b"GBR", 99991231) && !holding.holds(*b"ENG", 99991231));
    /// ```
    pub fn holds(&self, tag: Tag, day: Date) -> bool {
        self.slots.iter().any(|slot| slot.holder(day) == Some(tag))
    }

    /// Whether a slot is nobody's on a day.
    ///
    /// ```
    /// use chronicle_trial::{guarantee::Holding, sample};
    ///
    /// assert!(Holding::of(&sample::worked(), &[]).unwrap().any_free(14441111));
    /// ```
    pub fn any_free(&self, day: Date) -> bool {
        self.slots.iter().any(|slot| slot.holder(day).is_none())
    }
}

/// All switches by the tag given up, then by date, ties in row order.
struct Switches(Vec<(Tag, Date, Tag)>);

impl Switches {
    fn of(campaign: &Campaign) -> Switches {
        let mut all = Vec::new();
        for country in &campaign.countries {
            all.extend(country.switches.iter().map(|s| (s.from, s.date, country.tag)));
        }
        all.sort_by_key(|&(from, date, _)| (from, date));
        Switches(all)
    }

    fn settled(&self, to: Tag, date: Date) -> Tag {
        let first = self.0.partition_point(|&(from, day, _)| (from, day) < (to, date));
        match self.0.get(first) {
            Some(&(from, _, country)) if from == to => country,
            _ => to,
        }
    }
}

#[cfg(test)]
mod tests {
    use super::*;
    use crate::adversary::{days_of, draw, tags_of};
    use crate::generate::Random;
    use crate::{model, recount};

    #[test]
    fn a_search_settles_as_a_look_at_all_switches() {
        let mut random = Random::new(1500);
        for _ in 0..300 {
            let campaign = draw(&mut random);
            let switches = Switches::of(&campaign);
            let days = days_of(&mut random, &campaign);
            for (tag, day) in
                tags_of(&campaign).into_iter().flat_map(|t| days.iter().map(move |&d| (t, d)))
            {
                let expected = recount::settled(&campaign, tag, day);
                assert_eq!(switches.settled(tag, day), expected, "{campaign:#?}");
            }
        }
    }

    #[test]
    fn on_the_last_day_as_after_the_last_change() {
        let mut random = Random::new(1501);
        for _ in 0..300 {
            let campaign = draw(&mut random);
            let changes = model::changes(&campaign);
            let holders = recount::holders(&campaign, &changes);
            let holding = Holding::of(&campaign, &changes).unwrap();
            assert_eq!(holding.any_free(99991231), holders.contains(&None));
            for tag in tags_of(&campaign) {
                assert_eq!(holding.holds(tag, 99991231), holders.contains(&Some(tag)));
            }
        }
    }
}
