//! `nation_events`, against the Rust's owner changes and nations.

use std::hint::black_box;

use chronicle::rows::{CHANGE_WORDS, COUNT_WORDS, ENTRY_WORDS, NATION_WORDS};
use chronicle_oracle::rust::Rust;
use chronicle_trial::extremes::{late_changes, nations, rising};
use chronicle_trial::generate::{counts_of, sized};
use chronicle_trial::pack::{pack, Campaign};

use crate::owners::GROWTH;
use crate::race::{self, heading, spent, Timed};

/// Switches in a growing record.
const SWITCHES: [usize; 4] = [2_500, 5_000, 10_000, 20_000];

/// At the limits, and growing.
pub fn all(rounds: usize) {
    heading("province_owners + nation_events: every row that they read at its limit");
    race("dates as drawn", &nations(1), 60_000, rounds);
    race("dates rising", &rising(nations(1)), 60_000, rounds);
    heading("province_owners + nation_events: growth in events");
    for events in GROWTH {
        race(&format!("{events} events"), &with_switches(20_000, events), events, rounds);
    }
    heading("province_owners + nation_events: no switches");
    race("60000 events", &with_switches(0, 60_000), 60_000, rounds);
    heading("province_owners + nation_events: growth in switches");
    for switches in SWITCHES {
        let campaign = with_switches(switches, 60_000);
        race(&format!("{switches} switches"), &campaign, switches, rounds);
    }
    heading("province_owners + nation_events: one country's switches, all from one tag");
    for switches in SWITCHES {
        race(&format!("{switches} switches"), &late_changes(switches), switches, rounds);
    }
}

fn with_switches(switches: usize, events: usize) -> Campaign {
    let counts = [('C', 2_000), ('P', 8_000), ('A', 20_000), ('B', switches), ('E', events)];
    sized(&counts_of(&counts), 1)
}

fn race(name: &str, campaign: &Campaign, rows: usize, rounds: usize) {
    let (rust, record) = (Rust::of(campaign), pack(campaign));
    let ours = &mut || ours(&record, campaign);
    race::race(name, rows, rounds, &mut || Some(theirs(&rust)), ours);
}

fn theirs(rust: &Rust) -> Timed {
    let before = spent();
    let owners = black_box(black_box(rust).owners());
    let nations = black_box(rust.nation_events(&owners));
    let time = spent() - before;
    (nations.len(), time)
}

/// Each event can bring two entries, and each switch one.
pub fn ours(record: &[u8], campaign: &Campaign) -> Option<Timed> {
    let events: usize = campaign.provinces.iter().map(|province| province.events.len()).sum();
    let switches: usize = campaign.countries.iter().map(|c| c.switches.len()).sum();
    let [countries, provinces] = [campaign.countries.len(), campaign.provinces.len()];
    let cells = [
        NATION_WORDS * countries,
        ENTRY_WORDS * (2 * events + switches),
        provinces + 1,
        countries,
        CHANGE_WORDS * events,
        COUNT_WORDS,
    ];
    let mut lent = cells.map(|length| vec![0; length]);
    let [nations, entries, holders, held, changes, counts] = lent.each_mut().map(|v| &mut v[..]);
    let room = chronicle::raw::Room { nations, entries, holders, held, changes, counts };
    let before = spent();
    let answer = black_box(chronicle::raw::nation_events(black_box(record), room));
    let time = spent() - before;
    answer.expect("there is room for every row");
    Some((lent[5][0] as usize, time))
}
