//! The tags and dates that a campaign is drawn from, and its rows.

use crate::generate::{draw_date, repeat, shuffle, Random};
use crate::pack::{
    Country, Date, LedgerName, OwnerEvent, Point, Province, Switch, Tag, War, WarEvent,
    HAS_SWITCHED_NATION, HUMAN, NONE, WAS_PLAYER,
};

/// `---` stands first, so that it can be taken always or never.
const TAGS: [&Tag; 9] = [b"---", b"ENG", b"GBR", b"FRA", b"AAA", b"AAB", b"0-Z", b"zzz", b"--0"];

/// Month and day, with neighbours across the ends of months and years.
const DAYS: [u32; 8] = [101, 102, 131, 201, 228, 301, 1111, 1231];

const NAMES: [&str; 6] = ["Player", "Ann", "Bob", "", "Zoë", "ENG"];

/// Texts that are no tag, `€` of three bytes among them.
const NO_TAGS: [&str; 6] = ["", "EN", "ENGL", "€", "E G", "E_G"];

/// The tags and dates a campaign is made of.
pub(super) struct Pools {
    tags: Vec<Tag>,
    dates: Vec<Date>,
    pub(super) start: Date,
    pub(super) current: Date,
    /// Several countries may begin with this one.
    shared: Tag,
}

impl Pools {
    pub(super) fn draw(random: &mut Random) -> Pools {
        let mut tags: Vec<Tag> = TAGS[1..].iter().map(|&&tag| tag).collect();
        shuffle(random, &mut tags);
        tags.truncate(1 + random.below(5));
        if random.below(4) > 0 {
            tags.push(NONE);
        }
        let dates = draw_dates(random);
        // An early start leaves more to happen after it.
        let mut ends = [random.pick(&dates), random.pick(&dates), random.pick(&dates)];
        ends.sort_unstable();
        let shared = random.pick(&tags);
        Pools { tags, dates, start: ends[0], current: random.pick(&ends[1..]), shared }
    }

    fn tag(&self, random: &mut Random) -> Tag {
        random.pick(&self.tags)
    }

    fn date(&self, random: &mut Random) -> Date {
        random.pick(&self.dates)
    }

    pub(super) fn countries(&self, random: &mut Random) -> Vec<Country> {
        let mut tags = self.tags.clone();
        shuffle(random, &mut tags);
        let most = tags.len() + 1;
        tags.truncate(random.below(most).max(random.below(most)));
        tags.into_iter().map(|tag| self.country(random, tag)).collect()
    }

    fn country(&self, random: &mut Random, tag: Tag) -> Country {
        let (previous, switches) = match random.below(8) {
            0 => (0, 0),
            1 => (1 + random.below(3), 0),
            2 => (0, 1 + random.below(4)),
            _ => (random.below(4), random.below(5)),
        };
        let mut country = Country {
            tag,
            flags: random.pick(&[0, WAS_PLAYER, HUMAN | WAS_PLAYER | HAS_SWITCHED_NATION, 255])
                & random.pick(&[7, 7, HUMAN | WAS_PLAYER, 0]),
            num_of_cities: random.pick(&[1, 12, i32::MAX, 0, -1, i32::MIN]),
            previous_tags: repeat(previous, || self.tag(random)),
            switches: self.switches(random, switches),
        };
        if random.below(3) == 0 {
            self.share(&mut country);
        }
        country
    }

    /// Makes the country begin as others may.
    fn share(&self, country: &mut Country) {
        if let Some(switch) = country.switches.first_mut() {
            switch.from = self.shared;
        } else if let Some(tag) = country.previous_tags.first_mut() {
            *tag = self.shared;
        }
    }

    fn switches(&self, random: &mut Random, count: usize) -> Vec<Switch> {
        let dates = self.dates_in_order(random, count);
        let mut froms = repeat(count, || self.tag(random));
        if random.below(3) == 0 && count > 1 {
            // A chain that comes back to where it was.
            let [one, other] = [froms[0], froms[1]];
            froms = (0..count).map(|at| [one, other][at % 2]).collect();
        }
        dates.into_iter().zip(froms).map(|(date, from)| Switch { date, from }).collect()
    }

    /// Rising, falling, all on one day, or as they come.
    fn dates_in_order(&self, random: &mut Random, count: usize) -> Vec<Date> {
        let mut dates = repeat(count, || self.date(random));
        match random.below(5) {
            0 => dates.sort_unstable_by(|a, b| b.cmp(a)),
            1 => dates.fill(self.date(random)),
            2 | 3 => dates.sort_unstable(),
            _ => {}
        }
        dates
    }

    /// Owners are countries' first tags more often than chance would have it: those hold slots.
    pub(super) fn provinces(&self, random: &mut Random, countries: &[Country]) -> Vec<Province> {
        let mut owners = self.tags.clone();
        owners.extend(countries.iter().map(initial));
        let count = random.pick(&[0, 1, 1, 1, 2, 2, 3, 4, 5]);
        let ids = draw_ids(random, count);
        let mut province = |id| {
            let owner = random.pick(&owners);
            self.province(random, id, owner)
        };
        ids.into_iter().map(&mut province).collect()
    }

    fn province(&self, random: &mut Random, id: u16, owner: Tag) -> Province {
        let count = random.below(7);
        let dates = self.dates_in_order(random, count);
        let mut tags = repeat(count, || self.tag(random));
        match random.below(4) {
            // Lost and regained, also on one day.
            0 => tags.iter_mut().skip(1).step_by(2).for_each(|tag| *tag = owner),
            // The same owner again and again: no change at all.
            1 => (1..count).step_by(2).for_each(|at| tags[at] = tags[at - 1]),
            _ => {}
        }
        let events = dates.into_iter().zip(tags).map(|(date, tag)| OwnerEvent { date, tag });
        Province { id, owner, events: events.collect() }
    }

    pub(super) fn wars(&self, random: &mut Random) -> Vec<War> {
        let event = |random: &mut Random| WarEvent {
            date: self.date(random),
            kind: random.pick(&[0, 0, 1, 1, 2, 3, 4]),
            tag: self.tag(random),
        };
        let wars = random.below(4);
        repeat(wars, || {
            let events = random.below(5);
            War { events: repeat(events, || event(random)) }
        })
    }

    pub(super) fn ledger(&self, random: &mut Random) -> Vec<LedgerName> {
        let names = random.below(5);
        repeat(names, || {
            let points = random.below(6);
            LedgerName { tag: self.tag(random), points: self.points(random, points) }
        })
    }

    /// Years mostly rise; now and then they fall, stay, or lie outside the campaign.
    fn points(&self, random: &mut Random, count: usize) -> Vec<Point> {
        let mut year = (self.start / 10_000).saturating_sub(1) as u16;
        repeat(count, || {
            year = match random.below(8) {
                0 => (self.date(random) / 10_000) as u16,
                1 => year.saturating_sub(1),
                2 => year,
                3 => random.pick(&[0, 1, 9998, 9999]),
                _ => (year + 1 + random.below(2) as u16).min(9999),
            };
            Point { year, value: random.pick(&[0, 1, -1, 77, i32::MAX, i32::MIN]) }
        })
    }

    /// Names and tag texts by turns.
    pub(super) fn strings(&self, random: &mut Random) -> Vec<Vec<u8>> {
        let string = |random: &mut Random, number: usize| match (number % 2, random.below(6)) {
            (0, _) => random.pick(&NAMES).as_bytes().to_vec(),
            (_, 0) => random.pick(&NO_TAGS).as_bytes().to_vec(),
            _ => self.tag(random).to_vec(),
        };
        let count = random.below(8);
        (0..count).map(|number| string(random, number)).collect()
    }
}

fn initial(country: &Country) -> Tag {
    let switched = country.switches.first().map(|switch| switch.from);
    switched.or(country.previous_tags.first().copied()).unwrap_or(country.tag)
}

/// A few days that lie close together; now and then some that lie far apart.
fn draw_dates(random: &mut Random) -> Vec<Date> {
    let count = 1 + random.below(6);
    if random.below(32) == 0 {
        return repeat(count, || draw_date(random));
    }
    let first = random.pick(&[1444, 1444, 1444, 1, 9996]);
    repeat(count, || (first + random.below(3) as u32) * 10_000 + random.pick(&DAYS))
}

/// In order from 1, in reverse, or any of 0 to the count in any order.
fn draw_ids(random: &mut Random, count: u16) -> Vec<u16> {
    match random.below(4) {
        0 => (1..=count).collect(),
        1 => (1..=count).rev().collect(),
        _ => {
            let mut ids: Vec<u16> = (0..=count).collect();
            shuffle(random, &mut ids);
            ids.truncate(usize::from(count));
            ids
        }
    }
}
