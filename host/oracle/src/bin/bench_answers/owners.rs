//! `province_owners`.

use std::hint::black_box;

use chronicle::rows::CHANGE_WORDS;
use chronicle_oracle::rust::Rust;
use chronicle_trial::extremes::{in_order, owners, reversed, rising};
use chronicle_trial::pack::{pack, Campaign};

use crate::orders::{self, game};
use crate::race::{self, heading, spent, Timed};

/// How the province rows stand, and what puts them so; they are drawn shuffled.
type Order = (&'static str, fn(Campaign) -> Campaign);

const ORDERS: [Order; 3] =
    [("in order", in_order), ("in reverse", reversed), ("shuffled", |campaign| campaign)];

/// Owner events in a growing record.
pub const GROWTH: [usize; 4] = [7_500, 15_000, 30_000, 60_000];

/// The ratio that is asked for first: the whole record is countries, provinces and owner events.
pub fn all(rounds: usize) {
    heading("province_owners: C = 2,000, P = 8,000, E = 60,000");
    let drawn = owners(60_000, 1);
    race("dates as drawn", &drawn, 60_000, rounds);
    race("dates rising", &rising(drawn), 60_000, rounds);
    for (order, arranged) in ORDERS {
        heading(&format!("province_owners: growth, provinces {order}"));
        for events in GROWTH {
            race(&format!("{events} events"), &arranged(owners(events, 1)), events, rounds);
        }
    }
    heading("province_owners: C = 2,000, one province with E = 60,000");
    for (order, made) in orders::ALL {
        race(order, &orders::one_province(&made(60_000)), 60_000, rounds);
    }
    heading(
        "province_owners: C = 2,000, P = 8,000, E = 60,000, ten days and one far to either side",
    );
    for (order, arranged) in ORDERS {
        let campaign = orders::few_days(arranged(owners(60_000, 1)));
        race(&format!("provinces {order}"), &campaign, 60_000, rounds);
    }
    heading("province_owners: C = 800, P = 4,000, E = 15,000, as a game writes them");
    race("dates rising in a province", &game(), 15_000, rounds);
    heading("province_owners: small records");
    for events in [3, 30, 300] {
        race(&format!("{events} events"), &owners_of(events), events, 20 * rounds);
    }
}

/// As many events in as many provinces.
fn owners_of(events: usize) -> Campaign {
    let mut campaign = in_order(rising(owners(60_000, 1)));
    campaign.countries.truncate(events);
    campaign.provinces.truncate(events);
    campaign.provinces.iter_mut().for_each(|province| province.events.truncate(1));
    campaign
}

fn race(name: &str, campaign: &Campaign, rows: usize, rounds: usize) {
    let (rust, record) = (Rust::of(campaign), pack(campaign));
    let ours = &mut || ours(&record, campaign);
    race::race(name, rows, rounds, &mut || Some(theirs(&rust)), ours);
}

fn theirs(rust: &Rust) -> Timed {
    let before = spent();
    let owners = black_box(black_box(rust).owners());
    let time = spent() - before;
    (owners.changes.len(), time)
}

fn ours(record: &[u8], campaign: &Campaign) -> Option<Timed> {
    let events: usize = campaign.provinces.iter().map(|province| province.events.len()).sum();
    let mut out = vec![0; CHANGE_WORDS * events];
    let before = spent();
    let rows = black_box(chronicle::raw::province_owners(black_box(record), &mut out));
    let time = spent() - before;
    Some((rows.expect("there is room for every event"), time))
}
