//! The four records, and the pages that stand beside them: a page holds less than a record may.

use chronicle::layout::{HEAD_COUNTS, LIMITS};
use chronicle_trial::adversary::players;
use chronicle_trial::extremes::pages::{to_and_fro, whole_page};
use chronicle_trial::extremes::{rising, yearly};
use chronicle_trial::generate::{counts_of, game, sized};
use chronicle_trial::pack::Campaign;
use chronicle_trial::sample::worked;

/// A record and what is asked of it.
pub struct Record {
    pub name: &'static str,
    pub campaign: fn() -> Campaign,
    /// Questions to the resolver by one call.
    pub questions: usize,
    /// What a page is asked of, and for how many tags; nothing if it is more than a page holds.
    pub page: Option<(fn() -> Campaign, usize)>,
}

pub const RECORDS: [Record; 4] = [
    Record {
        name: "at the limits",
        campaign: limits,
        questions: 100_000,
        page: Some((|| whole_page(600), 16_384)),
    },
    Record { name: "a game's", campaign: game, questions: 20_000, page: None },
    Record {
        name: "one province",
        campaign: one_province,
        questions: 20_000,
        page: Some((|| to_and_fro(4_000), 16_384)),
    },
    Record { name: "worked", campaign: worked, questions: 4, page: Some((worked, 2)) },
];

/// The first one with every count at an eighth, a quarter and a half of its limit, and at it.
pub const GROWTH: [Record; 4] = [
    Record { name: "1/8", campaign: || part_of_limits(8), questions: 12_500, page: None },
    Record { name: "1/4", campaign: || part_of_limits(4), questions: 25_000, page: None },
    Record { name: "1/2", campaign: || part_of_limits(2), questions: 50_000, page: None },
    Record { name: "at the limits", campaign: limits, questions: 100_000, page: None },
];

fn limits() -> Campaign {
    part_of_limits(1)
}

/// Every count, from 1440 to 1939: with the years as drawn, the ledgers of all nations would not fit into
/// memory. Every country was played.
fn part_of_limits(part: usize) -> Campaign {
    let counts = HEAD_COUNTS.map(|(letter, _, _, limit)| (letter, limit / part));
    let mut campaign = sized(&counts_of(&counts), 1);
    (campaign.start, campaign.current) = (14400101, 19391231);
    let mut campaign = players::at_limits(yearly(campaign), 0);
    campaign.ledger.truncate(LIMITS.ledger_names / part);
    campaign.strings.truncate(LIMITS.strings / part);
    campaign
}

/// 60,000 events of one province, by date, with 20 countries beside it.
fn one_province() -> Campaign {
    rising(sized(&counts_of(&[('C', 20), ('P', 1), ('E', 60_000)]), 3))
}
