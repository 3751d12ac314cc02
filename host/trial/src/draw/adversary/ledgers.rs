//! Ledgers that are hard to read: years about those in which somebody begins, switches or ends.

use crate::generate::{repeat, shuffle, Random};
use crate::lists::NOBODY;
use crate::pack::{Campaign, Country, Date, LedgerName, Point, Tag};
use crate::wars;

/// Names and points of a small campaign's ledger, at most.
const NAMES: usize = 10;
const POINTS: usize = 9;

/// The next small campaign, every second one with years that lie further apart and a ledger about
/// them.
///
/// ```
/// use chronicle_trial::adversary::ledgers;
/// use chronicle_trial::{generate::Random, pack::pack, reference::refusal_number};
///
/// assert_eq!(refusal_number(&pack(&ledgers::campaign(&mut Random::new(1)))), 0);
/// ```
pub fn campaign(random: &mut Random) -> Campaign {
    let mut campaign = wars::campaign(random);
    if random.below(2) == 0 {
        widen(random, &mut campaign);
        let names = random.below(NAMES + 1);
        campaign.ledger = draw(random, &campaign, names, POINTS);
    }
    campaign
}

/// So many ledger names, one for each tag that countries wear as far as they go, then for each
/// another one; with at most so many points each.
///
/// ```
/// use chronicle_trial::adversary::ledgers;
/// use chronicle_trial::{generate::Random, sample};
///
/// let drawn = ledgers::draw(&mut Random::new(1), &sample::worked(), 30, 4);
/// assert!(drawn.len() == 30 && drawn.iter().all(|name| name.points.len() <= 4));
/// assert!([*b"ENG", *b"GBR"].iter().all(|tag| drawn.iter().any(|name| name.tag == *tag)));
/// ```
pub fn draw(
    random: &mut Random,
    campaign: &Campaign,
    names: usize,
    points: usize,
) -> Vec<LedgerName> {
    let (mut tags, years) = (worn(campaign), years(campaign));
    shuffle(random, &mut tags);
    let name = |&tag: &Tag| {
        let points = random.below(points + 1);
        LedgerName { tag, points: draw_points(random, &years, points) }
    };
    tags.iter().cycle().take(names).map(name).collect()
}

/// Years that rise, now and then by two; that stay, fall, or lie about one of these.
fn draw_points(random: &mut Random, years: &[u16], count: usize) -> Vec<Point> {
    let mut year = near(random, years);
    repeat(count, || {
        year = match random.below(16) {
            0 | 1 => near(random, years),
            2 => random.pick(&[0, 1, 9998, 9999]),
            3 | 4 => year,
            5 | 6 => year.saturating_sub(1 + random.below(3) as u16),
            _ => (year + 1 + random.below(2) as u16).min(9999),
        };
        Point { year, value: random.pick(&[0, 1, -1, 77, -78_901, i32::MAX, i32::MIN]) }
    })
}

/// A year, the one before it or the one behind it.
fn near(random: &mut Random, years: &[u16]) -> u16 {
    (random.pick(years) + random.below(3) as u16).saturating_sub(1).min(9999)
}

/// Puts the years of all dates apart, in their order, if the calendar has room for them.
fn widen(random: &mut Random, campaign: &mut Campaign) {
    let years = years(campaign);
    let [first, last] = [years[0], years[years.len() - 1]].map(Date::from);
    let factor = 1 + random.below(10) as Date;
    if (last - first) * factor <= 9999 - first {
        for date in dates(campaign) {
            *date += (*date / 10_000 - first) * (factor - 1) * 10_000;
        }
    }
}

/// Every date of the campaign, the start's first.
fn dates(campaign: &mut Campaign) -> Vec<&mut Date> {
    let mut dates = vec![&mut campaign.start, &mut campaign.current];
    let switches = campaign.countries.iter_mut().flat_map(|country| &mut country.switches);
    dates.extend(switches.map(|switch| &mut switch.date));
    let events = campaign.provinces.iter_mut().flat_map(|province| &mut province.events);
    dates.extend(events.map(|event| &mut event.date));
    let events = campaign.wars.iter_mut().flat_map(|war| &mut war.events);
    dates.extend(events.map(|event| &mut event.date));
    dates
}

/// Every year in which something is dated, the first one first.
pub(crate) fn years(campaign: &Campaign) -> Vec<u16> {
    let mut campaign = campaign.clone();
    let mut years: Vec<u16> =
        dates(&mut campaign).into_iter().map(|date| (*date / 10_000) as u16).collect();
    years.sort_unstable();
    years.dedup();
    years
}

/// The tags that countries have or had, one at least.
pub(crate) fn worn(campaign: &Campaign) -> Vec<Tag> {
    let of = |country: &Country| {
        let froms = country.switches.iter().map(|switch| switch.from);
        froms.chain(country.previous_tags.iter().copied()).chain([country.tag]).collect::<Vec<_>>()
    };
    let mut tags: Vec<Tag> = campaign.countries.iter().flat_map(of).chain([NOBODY[0]]).collect();
    tags.sort_unstable();
    tags.dedup();
    tags
}
