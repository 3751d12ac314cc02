//! War bookings (Rules 6).

use std::collections::BTreeMap;

use crate::pack::{Campaign, Date, Tag, WarEvent};
use crate::rows::{Booking, Kind, Nation};

/// Who entered which war, in order, and where each is stored.
///
/// ```
/// use chronicle_trial::model::{bookings, chronicle};
/// use chronicle_trial::pack::{War, WarEvent};
/// use chronicle_trial::sample;
///
/// let mut campaign = sample::worked();
/// let joins = WarEvent { date: 14480531, kind: 0, tag: *b"ENG" };
/// campaign.wars.push(War { events: vec![joins, WarEvent { kind: 4, ..joins }] });
/// let bookings = bookings(&campaign, &chronicle(&campaign).nations);
/// assert_eq!(bookings.len(), 1);
/// assert_eq!(bookings[0].stored, *b"GBR");
/// ```
pub fn bookings(campaign: &Campaign, nations: &[Nation]) -> Vec<Booking> {
    let claims = Claims::of(nations);
    let mut bookings = Vec::new();
    for (number, war) in campaign.wars.iter().enumerate() {
        let joined = war.events.iter().filter(|event| [0, 1].contains(&event.kind));
        bookings.extend(joined.map(|event| booking(number, event, &claims)));
    }
    bookings
}

fn booking(war: usize, event: &WarEvent, claims: &Claims<'_>) -> Booking {
    let found = claims.meant(event.tag, event.date);
    Booking { war, tag: event.tag, stored: found.map_or(event.tag, |nation| nation.stored) }
}

/// Who switched to a tag and when, in list order, and who began with it: the whole list is too long
/// to be gone through for each of 100,000 events.
#[derive(Default)]
struct Claim<'a> {
    switched: Vec<(Date, &'a Nation)>,
    began: Option<&'a Nation>,
}

struct Claims<'a>(BTreeMap<Tag, Claim<'a>>);

impl<'a> Claims<'a> {
    fn of(nations: &'a [Nation]) -> Claims<'a> {
        let mut claims: BTreeMap<Tag, Claim<'a>> = BTreeMap::new();
        for nation in nations {
            claims.entry(nation.initial).or_default().began = Some(nation);
            for entry in &nation.entries {
                if let Kind::Switch(tag) = entry.kind {
                    claims.entry(tag).or_default().switched.push((entry.date, nation));
                }
            }
        }
        Claims(claims)
    }

    fn meant(&self, tag: Tag, date: Date) -> Option<&'a Nation> {
        let claim = self.0.get(&tag)?;
        let till_then = claim.switched.iter().filter(|(switched, _)| *switched <= date);
        // Of several greatest the last is given.
        till_then.max_by_key(|(switched, _)| *switched).map(|(_, nation)| *nation).or(claim.began)
    }
}

#[cfg(test)]
mod tests {
    use super::*;
    use crate::adversary::draw;
    use crate::generate::Random;
    use crate::lists::any_nations;
    use crate::model::resolve;

    #[test]
    fn plain_resolve_says_the_same() {
        let mut random = Random::new(1337);
        let (tags, days) = ([*b"ENG", *b"GBR", *b"---"], [14440101, 14440102, 14440103]);
        for _ in 0..500 {
            let nations = any_nations(&mut random, &tags, &days);
            let claims = Claims::of(&nations);
            for (tag, date) in tags.into_iter().flat_map(|tag| days.map(|day| (tag, day))) {
                let found = claims.meant(tag, date).map(|nation| (nation.latest, nation.stored));
                let expected = resolve(&nations, tag, date).map(|data| (data.current, data.stored));
                assert_eq!(found, expected, "{nations:?}");
            }
        }
    }

    #[test]
    fn every_attacker_and_defender_has_a_row() {
        let mut random = Random::new(1338);
        for _ in 0..200 {
            let campaign = draw(&mut random);
            let events = campaign.wars.iter().flat_map(|war| &war.events);
            let joined: Vec<Tag> = events.filter(|e| e.kind < 2).map(|e| e.tag).collect();
            let booked = bookings(&campaign, &[]);
            assert!(booked.iter().all(|row| row.stored == row.tag));
            assert_eq!(booked.iter().map(|row| row.tag).collect::<Vec<_>>(), joined);
        }
    }
}
