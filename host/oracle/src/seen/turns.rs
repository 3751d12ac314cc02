//! What the changes of a campaign do to who holds what.

use chronicle_trial::pack::{Campaign, Date, Tag};
use chronicle_trial::recount::{settled, start_holder};
use chronicle_trial::rows::Change;

use super::Seen;

impl Seen {
    /// Follows the holders through the changes; at the limits that takes too long, and is left out.
    pub(super) fn turns(&mut self, campaign: &Campaign, changes: &[Change]) {
        if changes.len() > MOST_TURNS {
            return;
        }
        let mut turns = Turns::start(campaign);
        changes.iter().for_each(|change| turns.apply(campaign, change));
        self.if_any("campaign: a change settles elsewhere than its tag", turns.elsewhere);
        self.if_any("campaign: a change is too late for a switch from its tag", turns.too_late);
        self.if_any("campaign: the old holder is not whom `from` settles to", turns.other_from);
        self.if_any("campaign: the last slot lost and regained on one day", turns.regained);
    }
}

/// More changes than this are not followed.
const MOST_TURNS: usize = 1_000;

/// Who holds each slot by now, and what was met on the way.
struct Turns {
    holders: Vec<Option<Tag>>,
    /// Who lost the last slot, and when.
    fallen: Vec<(Tag, Date)>,
    elsewhere: bool,
    too_late: bool,
    other_from: bool,
    regained: bool,
}

impl Turns {
    fn start(campaign: &Campaign) -> Turns {
        let slots = 0..=campaign.provinces.len() as u16;
        Turns {
            holders: slots.map(|slot| start_holder(campaign, slot)).collect(),
            fallen: Vec::new(),
            elsewhere: false,
            too_late: false,
            other_from: false,
            regained: false,
        }
    }

    fn apply(&mut self, campaign: &Campaign, &Change { date, id, from, to }: &Change) {
        let new = settled(campaign, to, date);
        let old = self.holders[usize::from(id)].replace(new);
        let mut switches = campaign.countries.iter().flat_map(|country| &country.switches);
        self.elsewhere |= new != to;
        self.too_late |= new == to && switches.any(|switch| switch.from == to);
        self.other_from |= old.is_some_and(|old| old != settled(campaign, from, date));
        let slots = |tag| self.holders.iter().filter(|&&holder| holder == Some(tag)).count();
        self.regained |= slots(new) == 1 && self.fallen.contains(&(new, date));
        if let Some(old) = old.filter(|&old| slots(old) == 0) {
            self.fallen.push((old, date));
        }
    }
}
