//! A campaign such as a game writes: nearly four centuries of it, in order.

use chronicle::layout::Counts;

use super::{repeat, Random};
use crate::pack::{
    Campaign, Country, Date, LedgerName, OwnerEvent, Point, Province, Switch, Tag, War, WarEvent,
    HUMAN, WAS_PLAYER,
};

const START: Date = 14441111;
const CURRENT: Date = 18210102;

/// One country of so many changed its tag, and was played.
const SWITCHED: usize = 5;
const PLAYED: usize = 80;

/// How many rows there are, about 700 KB of record.
const ROWS: Counts = Counts {
    countries: 800,
    previous_tags: 160,
    switches: 160,
    provinces: 4_000,
    owner_events: 15_000,
    wars: 1_200,
    war_events: 19_200,
    ledger_names: 960,
    points: 64_320,
    strings: 20,
};

/// Countries of unlike size, few of which ever changed their tag; provinces in order, three of four with
/// owners that change as the years go by; wars, a value a year for each tag, and ten players.
///
/// ```
/// use chronicle_trial::{generate::game, pack::pack, reference::refusal_number};
///
/// let record = pack(&game());
/// assert_eq!(refusal_number(&record), 0);
/// assert!((680_000..720_000).contains(&record.len()));
/// ```
pub fn game() -> Campaign {
    let mut random = Random::new(11);
    let countries: Vec<Country> =
        (0..ROWS.countries).map(|row| country(&mut random, row)).collect();
    Campaign {
        flags: 0,
        start: START,
        current: CURRENT,
        provinces: (1..=ROWS.provinces).map(|id| province(&mut random, &countries, id)).collect(),
        wars: repeat(ROWS.wars, || war(&mut random, &countries)),
        ledger: ledger(&countries),
        strings: players(&countries),
        countries,
    }
}

/// No two numbers below 17,576 have the same.
fn tag(number: usize) -> Tag {
    let place = number * 131 % 17_576;
    [place / 676, place / 26 % 26, place % 26].map(|letter| b'A' + letter as u8)
}

fn country(random: &mut Random, row: usize) -> Country {
    let switched = row.is_multiple_of(SWITCHED);
    let from = tag(ROWS.countries + row);
    Country {
        tag: tag(row),
        flags: if row.is_multiple_of(PLAYED) { WAS_PLAYER | HUMAN } else { 0 },
        num_of_cities: random.below(40) as i32,
        previous_tags: if switched { vec![from] } else { vec![] },
        switches: if switched { vec![Switch { date: date(random), from }] } else { vec![] },
    }
}

/// A day between the first and the last.
fn date(random: &mut Random) -> Date {
    let (year, month, day) = (1445 + random.below(376), 1 + random.below(12), 1 + random.below(28));
    (year * 10_000 + month * 100 + day) as Date
}

/// Few countries are large: the first have most of everything.
fn draw<'a>(random: &mut Random, countries: &'a [Country]) -> &'a Country {
    let [one, other] = [random.below(countries.len()), random.below(countries.len())];
    &countries[one * other / countries.len()]
}

fn worn(country: &Country, date: Date) -> Tag {
    let later = country.switches.iter().find(|switch| date < switch.date);
    later.map_or(country.tag, |switch| switch.from)
}

fn province(random: &mut Random, countries: &[Country], id: usize) -> Province {
    let each = ROWS.owner_events / (ROWS.provinces * 3 / 4);
    let mut dates = if id.is_multiple_of(4) { vec![] } else { repeat(each, || date(random)) };
    dates.sort_unstable();
    let owner = worn(draw(random, countries), START);
    let events =
        dates.into_iter().map(|date| OwnerEvent { date, tag: worn(draw(random, countries), date) });
    Province { id: id as u16, owner, events: events.collect() }
}

/// Half of its events bring somebody in; all are within a year or two, in order.
fn war(random: &mut Random, countries: &[Country]) -> War {
    let first = date(random);
    let event = |number: usize| {
        let date = first + (number / 8) as Date * 10_000;
        let kind = [0, 1, 4, 4, 0, 1, 4, 2][number % 8];
        WarEvent { date, kind, tag: worn(draw(random, countries), date) }
    };
    War { events: (0..ROWS.war_events / ROWS.wars).map(event).collect() }
}

/// Every tag that somebody wore, with a value for each of its first years.
fn ledger(countries: &[Country]) -> Vec<LedgerName> {
    let points = ROWS.points / ROWS.ledger_names;
    let own = countries.iter().map(|country| country.tag);
    let former = countries.iter().flat_map(|country| &country.previous_tags).copied();
    let point =
        |number: usize| Point { year: 1445 + number as u16, value: (number * 7 % 90) as i32 };
    let name = |tag| LedgerName { tag, points: (0..points).map(point).collect() };
    own.chain(former).map(name).collect()
}

fn players(countries: &[Country]) -> Vec<Vec<u8>> {
    let played = countries.iter().filter(|country| country.flags & WAS_PLAYER != 0);
    let texts = |(number, country): (usize, &Country)| {
        [format!("player {number}").into_bytes(), country.tag.to_vec()]
    };
    played.enumerate().flat_map(texts).collect()
}

#[cfg(test)]
mod tests {
    use super::*;
    use crate::pack::pack;

    #[test]
    fn rows_are_as_many_as_are_said() {
        let record = pack(&game());
        assert_eq!(Counts::read(record.first_chunk().unwrap()), ROWS);
        let rising = |province: &Province| province.events.is_sorted_by_key(|event| event.date);
        assert!(game().provinces.iter().all(rising));
    }
}
