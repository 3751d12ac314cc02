//! Wars that are hard to book: entered under tags that somebody takes or gives up about that day.

use crate::adversary;
use crate::calendar::{day_after, day_before};
use crate::generate::{repeat, Random};
use crate::lists::NOBODY;
use crate::pack::{Campaign, Country, Date, Tag, War, WarEvent, NONE};

/// Somebody wears the tag from this date on, or till then.
type Turn = (Date, Tag);

/// Events of the war that a small campaign has more.
const MORE_EVENTS: usize = 6;

/// The next small campaign, every second one with a war more.
///
/// ```
/// use chronicle_trial::{generate::Random, pack::pack, reference::refusal_number, wars};
///
/// assert_eq!(refusal_number(&pack(&wars::campaign(&mut Random::new(1)))), 0);
/// ```
pub fn campaign(random: &mut Random) -> Campaign {
    let mut campaign = adversary::draw(random);
    if random.below(2) == 0 {
        let war = draw(random, &campaign, 1, MORE_EVENTS);
        campaign.wars.extend(war);
    }
    campaign
}

/// So many wars of a campaign's countries, with so many events each.
///
/// ```
/// use chronicle_trial::{generate::Random, sample, wars};
///
/// let drawn = wars::draw(&mut Random::new(1), &sample::worked(), 3, 20);
/// let events: Vec<_> = drawn.iter().flat_map(|war| &war.events).collect();
/// assert_eq!((drawn.len(), events.len()), (3, 60));
/// assert!(events.iter().any(|event| event.date == 14480531 && event.tag == *b"ENG"));
/// ```
pub fn draw(random: &mut Random, campaign: &Campaign, wars: usize, events: usize) -> Vec<War> {
    let turns = turns(campaign);
    repeat(wars, || War { events: repeat(events, || event(random, &turns)) })
}

/// Whoever joins has a battle or somebody's leave before and behind, more often than not.
fn event(random: &mut Random, turns: &[Turn]) -> WarEvent {
    let (date, tag) = random.pick(turns);
    let shifted = match random.below(8) {
        0 | 1 => day_before(date),
        2 => day_after(date),
        3 => Some(random.pick(turns).0),
        _ => None,
    };
    let tag = match random.below(32) {
        0 => random.pick(&NOBODY),
        1 => NONE,
        2 | 3 => random.pick(turns).1,
        _ => tag,
    };
    WarEvent { date: shifted.unwrap_or(date), kind: random.pick(&[0, 0, 1, 1, 2, 3, 4, 4]), tag }
}

/// There is one at least.
fn turns(campaign: &Campaign) -> Vec<Turn> {
    let mut turns = vec![(campaign.start, NONE), (campaign.current, NOBODY[0])];
    campaign.countries.iter().for_each(|country| of_country(&mut turns, campaign.start, country));
    turns
}

/// The first tag from the start on; each tag on the day it is given up, and the next one then.
fn of_country(turns: &mut Vec<Turn>, start: Date, country: &Country) {
    let froms = country.switches.iter().map(|switch| switch.from);
    let last = country.previous_tags.get(country.switches.len()).copied().unwrap_or(country.tag);
    let targets = froms.clone().skip(1).chain([last]);
    let first = froms.clone().next().or(country.previous_tags.first().copied());
    turns.push((start, first.unwrap_or(country.tag)));
    for (switch, target) in country.switches.iter().zip(targets) {
        turns.extend([(switch.date, switch.from), (switch.date, target)]);
    }
}

#[cfg(test)]
mod tests {
    use super::*;
    use crate::pack::pack;
    use crate::reference::refusal_number;

    #[test]
    fn drawn_wars_are_accepted() {
        let mut random = Random::new(3);
        for round in 0..1_000 {
            let mut campaign = adversary::draw_bare(&mut random);
            campaign.wars = draw(&mut random, &campaign, 2, 9);
            assert_eq!(refusal_number(&pack(&campaign)), 0, "round {round}");
        }
    }
}
