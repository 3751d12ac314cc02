//! `war_participants`, against the Rust's `resolved_war_participants` over all wars with the making
//! of its resolver. Both are given the nations ready made.

use std::hint::black_box;

use chronicle::rows::BOOKING_WORDS;
use chronicle_oracle::rust::{nation_events, Rust};
use chronicle_trial::extremes::{self, at_war, nations, switching};
use chronicle_trial::generate::{counts_of, sized};
use chronicle_trial::model;
use chronicle_trial::pack::{pack, Campaign};
use chronicle_trial::rows::{entry_words, nation_words, Nation};
use eu4save::query::NationEvents;

use crate::race::{self, heading, spent, Timed};

const SWITCHES: [usize; 4] = [2_500, 5_000, 10_000, 20_000];
const WAR_EVENTS: [usize; 4] = [12_500, 25_000, 50_000, 100_000];

/// The Rust copies a nation's entries for each of its switches: with more of one nation's than this
/// it is not run.
const MOST_SWITCHES: usize = 4_000;

/// At the limits, where one country switched very often, and growing.
pub fn all(rounds: usize) {
    heading("war_participants: V = 100,000");
    let [(_, drawn), (_, own_tags)] = [extremes::ALL[0], extremes::ALL[1]];
    race("every count at its limit", &drawn(), rounds);
    race("each country under its own tags", &own_tags(), rounds);
    race("wars about switches, no ledger", &at_war(nations(1)), rounds);
    for (tags, name) in [(1, "from one tag"), (4, "by turns under four tags")] {
        heading(&format!("war_participants: V = 100,000, one country's switches, {name}"));
        for switches in [1_000, 2_000, MOST_SWITCHES, 20_000] {
            race(&format!("{switches} switches"), &switching(switches, tags), rounds);
        }
        let behind = behind_all(switching(MOST_SWITCHES, tags));
        race(&format!("{MOST_SWITCHES}, wars behind all"), &behind, rounds);
    }
    heading("war_participants: growth in war events, no ledger");
    for events in WAR_EVENTS {
        race(&format!("{events} war events"), &with(20_000, events), rounds);
    }
    heading("war_participants: growth in switches, no ledger");
    for switches in SWITCHES {
        race(&format!("{switches} switches"), &with(switches, 100_000), rounds);
    }
}

/// The same campaign with every war after the last switch.
fn behind_all(mut campaign: Campaign) -> Campaign {
    let last = campaign.current;
    let events = campaign.wars.iter_mut().flat_map(|war| &mut war.events);
    events.for_each(|event| event.date = last);
    campaign
}

fn with(switches: usize, war_events: usize) -> Campaign {
    let nations = [('C', 2_000), ('P', 8_000), ('A', 20_000), ('B', switches), ('E', 60_000)];
    let wars = [('W', 5_000), ('V', war_events)];
    sized(&counts_of(&[&nations[..], &wars].concat()), 1)
}

/// What both are given.
struct Given {
    rust: Rust,
    theirs: Vec<NationEvents>,
    record: Vec<u8>,
    nations: Vec<u32>,
    entries: Vec<u32>,
    war_events: usize,
}

fn race(name: &str, campaign: &Campaign, rounds: usize) {
    let nations = model::chronicle(campaign).nations;
    let given = Given {
        rust: Rust::of(campaign),
        theirs: nations.iter().map(nation_events).collect(),
        record: pack(campaign),
        nations: nation_words(&nations),
        entries: entry_words(&nations),
        war_events: campaign.wars.iter().map(|war| war.events.len()).sum(),
    };
    let most = nations.iter().map(switches).max().unwrap_or(0);
    let theirs = &mut || (most <= MOST_SWITCHES).then(|| theirs(&given));
    race::race(name, given.war_events, rounds, theirs, &mut || ours(&given));
}

fn switches(nation: &Nation) -> usize {
    let switch = |entry: &&chronicle_trial::rows::Entry| {
        matches!(entry.kind, chronicle_trial::rows::Kind::Switch(_))
    };
    nation.entries.iter().filter(switch).count()
}

fn theirs(given: &Given) -> Timed {
    let before = spent();
    let answered = black_box(black_box(&given.rust).war_participants(&given.theirs));
    let time = spent() - before;
    (answered.1.iter().map(|war| war.participants.len()).sum(), time)
}

fn ours(given: &Given) -> Option<Timed> {
    let rows = chronicle::raw::Chronicle { nations: &given.nations, entries: &given.entries };
    let mut out = vec![0; BOOKING_WORDS * given.war_events];
    let before = spent();
    let answered = black_box(rows.war_participants(black_box(&given.record), &mut out));
    let time = spent() - before;
    Some((answered.expect("there is room for every event"), time))
}
