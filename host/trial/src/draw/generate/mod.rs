//! Seeded campaigns: ordinary ones, small adversarial ones, and ones of a wanted size.
//!
//! Every campaign made here is one whose record is accepted.

mod counts;
mod game;
mod knobs;
mod random;

use std::collections::BTreeSet;

use chronicle::layout::{Counts, LIMITS};

use crate::calendar::DAYS;
use crate::pack::{
    Campaign, Country, Date, LedgerName, OwnerEvent, Point, Province, Switch, Tag, War, WarEvent,
    NONE,
};

pub use {counts::counts_of, game::game, knobs::Knobs, random::Random};

/// The bytes a tag may have.
pub const TAG_BYTES: &[u8; 63] = b"-0123456789ABCDEFGHIJKLMNOPQRSTUVWXYZabcdefghijklmnopqrstuvwxyz";

/// Draws a campaign within the knobs.
///
/// ```
/// use chronicle_trial::generate::{campaign, Knobs, Random};
///
/// let drawn = campaign(&mut Random::new(3), &Knobs::small());
/// assert!(drawn.countries.len() <= 4);
/// ```
pub fn campaign(random: &mut Random, knobs: &Knobs) -> Campaign {
    let shape = Shape::drawn(random, knobs);
    let pools = Pools::draw(random, shape.countries.len() + knobs.other_tags, knobs.dates);
    shape.fill(random, &pools)
}

/// A campaign with exactly these counts, spread evenly over the rows that own them.
///
/// Owned rows need owners: with no country there can be no switch, and so on.
///
/// ```
/// use chronicle::layout::Counts;
/// use chronicle_trial::{generate::sized, pack::pack, reference};
///
/// let counts = Counts { countries: 3, switches: 10, ..Counts::default() };
/// let record = pack(&sized(&counts, 1));
/// assert_eq!(record.len(), 44 + 3 * 12 + 10 * 7);
/// assert_eq!(reference::refusal_number(&record), 0);
/// ```
pub fn sized(counts: &Counts, seed: u64) -> Campaign {
    let mut random = Random::new(seed);
    let shape = Shape::even(&mut random, counts);
    let pools = Pools::draw(&mut random, counts.countries + 100, 5_000);
    shape.fill(&mut random, &pools)
}

/// Every count at its limit: about 7.5 MB.
///
/// ```
/// use chronicle_trial::{generate::at_limits, pack::pack};
///
/// assert!(pack(&at_limits()).len() > 7_500_000);
/// ```
pub fn at_limits() -> Campaign {
    sized(&LIMITS, 1)
}

/// A long campaign as leagues play them: about 600 KB.
///
/// ```
/// use chronicle_trial::{generate::about_600_kb, pack::pack};
///
/// assert!((580_000..620_000).contains(&pack(&about_600_kb()).len()));
/// ```
pub fn about_600_kb() -> Campaign {
    let counts = Counts {
        countries: 1_000,
        provinces: 4_000,
        previous_tags: 1_000,
        switches: 600,
        owner_events: 16_000,
        strings: 100,
        wars: 1_500,
        war_events: 16_000,
        ledger_names: 900,
        points: 50_000,
    };
    sized(&counts, 2)
}

/// How many rows each row owns, and the length of each string.
struct Shape {
    countries: Vec<(usize, usize)>,
    provinces: Vec<usize>,
    wars: Vec<usize>,
    ledger: Vec<usize>,
    strings: Vec<usize>,
}

impl Shape {
    fn drawn(random: &mut Random, knobs: &Knobs) -> Shape {
        let countries = random.below(knobs.rows.countries + 1);
        Shape {
            countries: (0..countries)
                .map(|_| {
                    let previous_tags = random.below(knobs.previous_tags + 1);
                    (previous_tags, random.below(knobs.switches + 1))
                })
                .collect(),
            provinces: draw_counts(random, knobs.rows.provinces, knobs.owner_events),
            wars: draw_counts(random, knobs.rows.wars, knobs.war_events),
            ledger: draw_counts(random, knobs.rows.ledger_names, knobs.points),
            strings: draw_counts(random, knobs.rows.strings, knobs.string_length),
        }
    }

    fn even(random: &mut Random, counts: &Counts) -> Shape {
        let previous_tags = spread(counts.previous_tags, counts.countries);
        let switches = spread(counts.switches, counts.countries);
        Shape {
            countries: previous_tags.into_iter().zip(switches).collect(),
            provinces: spread(counts.owner_events, counts.provinces),
            wars: spread(counts.war_events, counts.wars),
            ledger: spread(counts.points, counts.ledger_names),
            strings: (0..counts.strings).map(|_| random.below(24)).collect(),
        }
    }

    fn fill(&self, random: &mut Random, pools: &Pools) -> Campaign {
        let mut dates = [random.pick(&pools.dates), random.pick(&pools.dates)];
        dates.sort_unstable();
        Campaign {
            flags: random.byte() & 3,
            start: dates[0],
            current: dates[1],
            countries: self.countries(random, pools),
            provinces: self.provinces(random, pools),
            wars: self.wars(random, pools),
            ledger: self.ledger(random, pools),
            strings: self.strings(random, pools),
        }
    }

    fn countries(&self, random: &mut Random, pools: &Pools) -> Vec<Country> {
        let mut tags = pools.tags.clone();
        shuffle(random, &mut tags);
        let row = |(tag, &(previous_tags, switches)): (Tag, &(usize, usize))| Country {
            tag,
            flags: random.byte() & 7,
            num_of_cities: random.pick(&[0, 0, 1, 12, -1, i32::MIN, i32::MAX]),
            previous_tags: repeat(previous_tags, || random.pick(&pools.tags)),
            switches: repeat(switches, || Switch {
                date: random.pick(&pools.dates),
                from: random.pick(&pools.tags),
            }),
        };
        tags.into_iter().zip(&self.countries).map(row).collect()
    }

    fn provinces(&self, random: &mut Random, pools: &Pools) -> Vec<Province> {
        let last = u16::try_from(self.provinces.len()).expect("ids have 16 bits");
        let mut ids: Vec<u16> = (0..=last).collect();
        shuffle(random, &mut ids);
        let row = |(id, &events): (u16, &usize)| Province {
            id,
            owner: random.pick(&pools.tags),
            events: repeat(events, || OwnerEvent {
                date: random.pick(&pools.dates),
                tag: random.pick(&pools.tags),
            }),
        };
        ids.into_iter().zip(&self.provinces).map(row).collect()
    }

    fn wars(&self, random: &mut Random, pools: &Pools) -> Vec<War> {
        let event = |random: &mut Random| WarEvent {
            date: random.pick(&pools.dates),
            kind: random.byte() % 5,
            tag: random.pick(&pools.tags),
        };
        let row = |&events: &usize| War { events: repeat(events, || event(random)) };
        self.wars.iter().map(row).collect()
    }

    fn ledger(&self, random: &mut Random, pools: &Pools) -> Vec<LedgerName> {
        let row = |&points: &usize| LedgerName {
            tag: random.pick(&pools.tags),
            points: draw_points(random, pools, points),
        };
        self.ledger.iter().map(row).collect()
    }

    /// Names and tag texts by turns, as the host writes players; some texts are no tags.
    fn strings(&self, random: &mut Random, pools: &Pools) -> Vec<Vec<u8>> {
        let string = |&length: &usize| match random.below(4) {
            0 => random.pick(&pools.tags).to_vec(),
            1 => b"Player".to_vec(),
            _ => repeat(length, || random.byte()),
        };
        self.strings.iter().map(string).collect()
    }
}

/// Years mostly rise by one from some year; now and then they jump, also backwards.
fn draw_points(random: &mut Random, pools: &Pools, points: usize) -> Vec<Point> {
    let mut year = random.pick(&pools.dates) / 10_000;
    repeat(points, || {
        year = match random.below(8) {
            0 => random.pick(&pools.dates) / 10_000,
            1 => random.pick(&[0, 1, 9998, 9999]),
            _ => (year + 1).min(9999),
        };
        Point { year: year as u16, value: random.next() as i32 >> random.below(31) }
    })
}

/// The tags and dates a campaign is made of.
struct Pools {
    tags: Vec<Tag>,
    dates: Vec<Date>,
}

impl Pools {
    fn draw(random: &mut Random, tags: usize, dates: usize) -> Pools {
        let mut different = BTreeSet::from([NONE]);
        while different.len() < tags {
            different.insert([0; 3].map(|_| random.pick(TAG_BYTES)));
        }
        Pools {
            tags: different.into_iter().collect(),
            dates: repeat(dates.max(1), || draw_date(random)),
        }
    }
}

/// A good date, at the ends of the calendar and of months more often than chance would have it.
pub(crate) fn draw_date(random: &mut Random) -> Date {
    let year = match random.below(16) {
        0 => 1,
        1 => 9999,
        _ => 1440 + random.below(400) as u32,
    };
    let month = random.below(12) as u32;
    let days = DAYS[month as usize];
    let day = match random.below(4) {
        0 => days,
        _ => 1 + random.below(days as usize) as u32,
    };
    year * 10_000 + (month + 1) * 100 + day
}

fn draw_counts(random: &mut Random, most_rows: usize, most_owned: usize) -> Vec<usize> {
    let rows = random.below(most_rows + 1);
    repeat(rows, || random.below(most_owned + 1))
}

fn spread(total: usize, rows: usize) -> Vec<usize> {
    (0..rows).map(|row| total * (row + 1) / rows - total * row / rows).collect()
}

pub(crate) fn repeat<T>(times: usize, make: impl FnMut() -> T) -> Vec<T> {
    std::iter::repeat_with(make).take(times).collect()
}

pub(crate) fn shuffle<T>(random: &mut Random, items: &mut [T]) {
    for last in (1..items.len()).rev() {
        items.swap(last, random.below(last + 1));
    }
}

#[cfg(test)]
mod tests {
    use super::*;
    use crate::pack::pack;
    use crate::reference::refusal_number;

    #[test]
    fn drawn_campaigns_are_accepted() {
        let mut random = Random::new(1);
        for round in 0..2_000 {
            let knobs = [Knobs::small(), Knobs::adversarial()][round % 2];
            let record = pack(&campaign(&mut random, &knobs));
            assert_eq!(refusal_number(&record), 0, "round {round}");
        }
    }

    #[test]
    fn sized_campaigns_have_those_counts_and_are_accepted() {
        for (campaign, expected) in [(at_limits(), Some(LIMITS)), (about_600_kb(), None)] {
            let record = pack(&campaign);
            let counts = Counts::read(record.first_chunk().unwrap());
            assert!(expected.is_none_or(|expected| counts == expected));
            assert_eq!(refusal_number(&record), 0);
        }
    }
}
