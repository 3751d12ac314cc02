//! Makes a campaign that shows something smaller, for as long as it still shows it.

use std::ops::Range;

use crate::pack::{pack, Campaign};
use crate::reference::refusal_number;

/// A campaign whose record is accepted and which still `shows` what the given one does, but no longer does
/// so without any one of its rows, or of the rows that these own.
///
/// ```
/// use chronicle_trial::{model::changes, sample, shrink::shrink};
///
/// let small = shrink(sample::worked(), |campaign| !changes(campaign).is_empty());
/// assert_eq!(small.provinces.len(), 1);
/// assert!(small.countries.is_empty());
/// ```
pub fn shrink(mut campaign: Campaign, shows: impl Fn(&Campaign) -> bool) -> Campaign {
    let shows = |smaller: &Campaign| refusal_number(&pack(smaller)) == 0 && shows(smaller);
    loop {
        let before = campaign.clone();
        for list in lists(&campaign) {
            campaign = shrink_list(campaign, list, &shows);
        }
        if campaign == before {
            return campaign;
        }
    }
}

/// A list of rows, of the campaign or of one of its rows.
#[derive(Clone, Copy)]
enum List {
    Countries,
    Provinces,
    Wars,
    Ledger,
    Strings,
    Switches(usize),
    PreviousTags(usize),
    OwnerEvents(usize),
    WarEvents(usize),
    Points(usize),
}

/// Those that own rows come first: with them go the rows that they own. Owned lists are numbered from the
/// last, and one whose owner is gone by then is empty.
fn lists(campaign: &Campaign) -> Vec<List> {
    let mut all = vec![List::Countries, List::Provinces, List::Wars, List::Ledger, List::Strings];
    let mut add = |count: usize, lists: &[fn(usize) -> List]| {
        all.extend((0..count).rev().flat_map(|row| lists.iter().map(move |list| list(row))));
    };
    add(campaign.countries.len(), &[List::Switches, List::PreviousTags]);
    add(campaign.provinces.len(), &[List::OwnerEvents]);
    add(campaign.wars.len(), &[List::WarEvents]);
    add(campaign.ledger.len(), &[List::Points]);
    all
}

/// Leaves out one half, then quarters, and so on down to single rows.
fn shrink_list(mut campaign: Campaign, list: List, shows: &impl Fn(&Campaign) -> bool) -> Campaign {
    let mut part = list.length(&campaign).div_ceil(2);
    while part > 0 {
        let mut at = 0;
        while at < list.length(&campaign) {
            let end = list.length(&campaign).min(at + part);
            let smaller = list.without(&campaign, at..end);
            if shows(&smaller) {
                campaign = smaller;
            } else {
                at = end;
            }
        }
        part /= 2;
    }
    campaign
}

impl List {
    fn length(self, campaign: &Campaign) -> usize {
        let Campaign { countries, provinces, wars, ledger, strings, .. } = campaign;
        match self {
            List::Countries => countries.len(),
            List::Provinces => provinces.len(),
            List::Wars => wars.len(),
            List::Ledger => ledger.len(),
            List::Strings => strings.len(),
            List::Switches(row) => countries.get(row).map_or(0, |c| c.switches.len()),
            List::PreviousTags(row) => countries.get(row).map_or(0, |c| c.previous_tags.len()),
            List::OwnerEvents(row) => provinces.get(row).map_or(0, |p| p.events.len()),
            List::WarEvents(row) => wars.get(row).map_or(0, |w| w.events.len()),
            List::Points(row) => ledger.get(row).map_or(0, |l| l.points.len()),
        }
    }

    fn without(self, campaign: &Campaign, rows: Range<usize>) -> Campaign {
        let mut smaller = campaign.clone();
        match self {
            List::Countries => drop(smaller.countries.drain(rows)),
            List::Provinces => drop(smaller.provinces.drain(rows)),
            List::Wars => drop(smaller.wars.drain(rows)),
            List::Ledger => drop(smaller.ledger.drain(rows)),
            List::Strings => drop(smaller.strings.drain(rows)),
            List::Switches(row) => drop(smaller.countries[row].switches.drain(rows)),
            List::PreviousTags(row) => drop(smaller.countries[row].previous_tags.drain(rows)),
            List::OwnerEvents(row) => drop(smaller.provinces[row].events.drain(rows)),
            List::WarEvents(row) => drop(smaller.wars[row].events.drain(rows)),
            List::Points(row) => drop(smaller.ledger[row].points.drain(rows)),
        }
        renumber(&mut smaller);
        smaller
    }
}

/// Ids above the number of provinces are moved down, or no province could be left out.
fn renumber(campaign: &mut Campaign) {
    let last = campaign.provinces.len() as u16;
    let mut used = vec![false; usize::from(last) + 1];
    for id in campaign.provinces.iter().map(|province| province.id).filter(|&id| id <= last) {
        used[usize::from(id)] = true;
    }
    let mut free = (1..=last).chain([0]).filter(|&id| !used[usize::from(id)]);
    for province in campaign.provinces.iter_mut().filter(|province| province.id > last) {
        province.id = free.next().unwrap_or(province.id);
    }
}

#[cfg(test)]
mod tests {
    use super::*;
    use crate::generate::game;

    /// A large campaign becomes as small as a small one, in a moderate number of tries.
    #[test]
    fn from_a_game_to_two_rows() {
        let tries = std::cell::Cell::new(0);
        let small = shrink(game(), |campaign| {
            tries.set(tries.get() + 1);
            campaign.provinces.iter().any(|province| province.events.len() > 2)
        });
        assert_eq!((small.countries.len(), small.provinces.len()), (0, 1));
        assert_eq!(small.provinces[0].events.len(), 3);
        assert!(pack(&small).len() < 80);
        assert!(tries.get() < 200, "{} tries", tries.get());
    }
}
