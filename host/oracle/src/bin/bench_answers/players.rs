//! `players`, `player_histories` and `starting_country`, against the Rust's. Both are given the nations
//! ready made.

use std::hint::black_box;
use std::time::Duration;

use chronicle::rows::{HISTORY_WORDS, PLAYER_WORDS};
use chronicle_oracle::rust::{nation_events, Rust};
use chronicle_trial::adversary::players::at_limits;
use chronicle_trial::extremes;
use chronicle_trial::generate::{counts_of, sized};
use chronicle_trial::model;
use chronicle_trial::pack::{pack, Campaign};
use chronicle_trial::rows::{entry_words, history_words, nation_words, History};
use chronicle_trial::told::Told;
use eu4save::query::{NationEvents, PlayerHistory};

use crate::race::{self, heading, spent, Timed};

const COUNTRIES: [usize; 4] = [250, 500, 1_000, 2_000];

/// What both are given.
struct Given {
    rust: Rust,
    theirs: Vec<NationEvents>,
    histories: Vec<PlayerHistory>,
    record: Vec<u8>,
    nations: Vec<u32>,
    entries: Vec<u32>,
    words: Vec<u32>,
    counts: [usize; 2],
}

/// The three calls, each by itself and one behind the other, at the limits and growing.
pub fn all(rounds: usize) {
    let own_tags = extremes::ALL[1].1;
    for (name, campaign) in [
        ("countries and strings alone", at_limits(alone(2_000), 0)),
        ("countries and strings, one country's players", at_limits(alone(2_000), 2)),
        ("no ledger and no wars", at_limits(without_ledger(own_tags()), 0)),
        ("every count at its limit", at_limits(own_tags(), 0)),
    ] {
        let given = given(&campaign);
        heading(&format!("2,000 was_player countries, 500 pairs, {name}"));
        races(&given, rounds);
    }
    heading("players + player_histories + starting_country: growth in countries and nations");
    for countries in COUNTRIES {
        let given = given(&at_limits(alone(countries), 0));
        race(&format!("{countries} countries"), &given, rounds, ALL_THREE);
    }
}

/// Each country is a nation: it holds a province under its own tag.
fn alone(countries: usize) -> Campaign {
    let mut campaign = sized(&counts_of(&[('C', countries), ('P', countries)]), 1);
    for (province, country) in campaign.provinces.iter_mut().zip(&campaign.countries) {
        province.owner = country.tag;
    }
    campaign
}

fn without_ledger(mut campaign: Campaign) -> Campaign {
    campaign.ledger.clear();
    campaign.wars.clear();
    campaign
}

fn given(campaign: &Campaign) -> Given {
    let (rust, nations) = (Rust::of(campaign), model::chronicle(campaign).nations);
    let theirs: Vec<_> = nations.iter().map(nation_events).collect();
    let told: Vec<History> = model::histories(campaign, &nations);
    Given {
        histories: rust.histories(&theirs),
        rust,
        theirs,
        record: pack(campaign),
        nations: nation_words(&nations),
        entries: entry_words(&nations),
        words: history_words(&told),
        counts: [campaign.countries.len(), campaign.strings.len() / 2],
    }
}

/// Answered so much, in which time.
type Call = (&'static str, fn(&Given) -> Timed, fn(&Given) -> Option<Timed>);

const PLAYERS: Call = ("players", theirs::players, ours::players);
const HISTORIES: Call = ("player_histories", theirs::histories, ours::histories);
const STARTING: Call = ("starting_country", theirs::starting, ours::starting);
const ALL_THREE: Call = ("all three", theirs::all_three, ours::all_three);
const UNCHECKED: Call = ("all three, our two checks deducted", theirs::all_three, ours::unchecked);

fn races(given: &Given, rounds: usize) {
    for call in [PLAYERS, HISTORIES, STARTING, ALL_THREE, UNCHECKED] {
        race(call.0, given, rounds, call);
    }
}

fn race(name: &str, given: &Given, rounds: usize, (_, theirs, ours): Call) {
    let rows = given.counts[0];
    race::race(name, rows, rounds, &mut || Some(theirs(given)), &mut || ours(given));
}

/// One behind the other: rows and times are added.
fn summed(calls: [Timed; 3]) -> Timed {
    calls.into_iter().fold((0, Duration::ZERO), |sum, one| (sum.0 + one.0, sum.1 + one.1))
}

/// What is answered is freed outside the time.
mod theirs {
    use super::*;

    /// Pairs of players and tags.
    pub fn players(given: &Given) -> Timed {
        let before = spent();
        let answered = black_box(black_box(&given.rust).player_list());
        let time = spent() - before;
        (answered.len(), time)
    }

    /// A history for each country that was played.
    pub fn histories(given: &Given) -> Timed {
        let before = spent();
        let answered = black_box(black_box(&given.rust).histories(&given.theirs));
        let time = spent() - before;
        (answered.len(), time)
    }

    /// The country that the player began with.
    pub fn starting(given: &Given) -> Timed {
        let before = spent();
        let answered = black_box(black_box(&given.rust).starting_country(&given.histories));
        let time = spent() - before;
        (usize::from(answered.is_some()), time)
    }

    /// The three calls together.
    pub fn all_three(given: &Given) -> Timed {
        summed([players(given), histories(given), starting(given)])
    }
}

mod ours {
    use chronicle::raw::Chronicle;

    use super::*;

    /// Pairs of players and tags.
    pub fn players(given: &Given) -> Option<Timed> {
        let mut out = vec![0; PLAYER_WORDS * given.counts[1]];
        let before = spent();
        let answered = black_box(chronicle::raw::players(black_box(&given.record), &mut out));
        let time = spent() - before;
        Some((answered.expect("there is room for every pair"), time))
    }

    /// A history for each country that was played.
    pub fn histories(given: &Given) -> Option<Timed> {
        let rows = Chronicle { nations: &given.nations, entries: &given.entries };
        let [mut out, mut names] =
            [HISTORY_WORDS * given.counts[0], given.counts[1]].map(|n| vec![0; n]);
        let before = spent();
        let record = black_box(&given.record);
        let answered = black_box(rows.player_histories(record, &mut out, &mut names));
        let time = spent() - before;
        Some((answered.expect("there is room for every country").histories, time))
    }

    /// The country that the player began with.
    pub fn starting(given: &Given) -> Option<Timed> {
        let rows = Chronicle { nations: &given.nations, entries: &given.entries };
        let before = spent();
        let answered = black_box(rows.starting(black_box(&given.words)));
        let time = spent() - before;
        Some((usize::from(answered.expect("the words are well shaped").is_some()), time))
    }

    /// The three calls together.
    pub fn all_three(given: &Given) -> Option<Timed> {
        Some(summed([players(given)?, histories(given)?, starting(given)?]))
    }

    /// Two of the calls are given a record and check it.
    pub fn unchecked(given: &Given) -> Option<Timed> {
        let (rows, time) = all_three(given)?;
        let before = spent();
        let checked = black_box(chronicle::raw::check(black_box(&given.record)));
        let check = spent() - before;
        checked.expect("the record is accepted");
        Some((rows, time.saturating_sub(2 * check)))
    }
}
