//! Ledgers at the limits.

use chronicle::layout::LIMITS;

use crate::adversary::ledgers::{worn, years};
use crate::generate::{repeat, shuffle, Random};
use crate::pack::{Campaign, LedgerName, Point};
use crate::rows::{Entry, Kind, Nation};

/// Points of each name.
const EACH: usize = LIMITS.points / LIMITS.ledger_names;

/// The same campaign with as many ledger names and points as there may be, of tags that its
/// countries wear; where these are few, most names stand behind others of the same tag. Years mostly
/// rise.
///
/// ```
/// use chronicle_trial::extremes::{in_ledgers, nations};
///
/// assert_eq!(in_ledgers(nations(1)).ledger.len(), 2_000);
/// ```
pub fn in_ledgers(campaign: Campaign) -> Campaign {
    let mut random = Random::new(12);
    let years = years(&campaign);
    with_points(campaign, &mut random, |random| {
        let mut year = random.pick(&years);
        repeat(EACH, || {
            year = match random.below(256) {
                0 => random.pick(&years),
                1..16 => year,
                16..32 => year.saturating_sub(1 + random.below(3) as u16),
                _ => (year + 1).min(9999),
            };
            Point { year, value: random.next() as i32 }
        })
    })
}

/// The same with a value for each year from the start on, as a game writes them.
///
/// ```
/// use chronicle_trial::extremes::{nations, yearly};
///
/// let campaign = yearly(nations(1));
/// let first = u32::from(campaign.ledger[7].points[0].year);
/// assert_eq!(first, campaign.start / 10_000 + 1);
/// ```
pub fn yearly(campaign: Campaign) -> Campaign {
    let first = (campaign.start / 10_000) as u16 + 1;
    with_points(campaign, &mut Random::new(13), |random| {
        let point = |year: u16| Point { year: year.min(9999), value: random.next() as i32 };
        (first..).take(EACH).map(point).collect()
    })
}

/// Words of the ledger that [`overlong`] has.
pub const OVERLONG_WORDS: usize = 4_914_708_480;

/// A campaign and a nation whose ledger has more words than 32 bits can count (Rules 7.10).
///
/// ```
/// use chronicle_trial::{extremes::overlong, model::spans};
///
/// let (campaign, nation) = overlong();
/// assert_eq!((campaign.ledger[0].points.len(), spans(&campaign, &nation).len()), (65_535, 5));
/// ```
pub fn overlong() -> (Campaign, Nation) {
    let (tag, last) = (*b"ENG", 99991231);
    let point = |number: usize| Point { year: [1, 9999][number % 2], value: 1 };
    let campaign = Campaign {
        start: 10101,
        current: last,
        ledger: vec![LedgerName { tag, points: (0..65_535).map(point).collect() }],
        ..Campaign::default()
    };
    let entries = vec![Entry { date: last, kind: Kind::Annexed }; 5];
    (campaign, Nation { initial: tag, latest: tag, stored: tag, entries })
}

fn with_points(
    mut campaign: Campaign,
    random: &mut Random,
    points: impl Fn(&mut Random) -> Vec<Point>,
) -> Campaign {
    let mut tags = worn(&campaign);
    shuffle(random, &mut tags);
    let named = tags.iter().cycle().take(LIMITS.ledger_names);
    campaign.ledger = named.map(|&tag| LedgerName { tag, points: points(random) }).collect();
    campaign
}
