//! `nation_ledger` and `nation_ledgers`, against the Rust's `nation_size_statistics_ledger` of every
//! nation. Both are given the nations ready made.

use std::hint::black_box;

use chronicle::rows::LEDGER_WORDS;
use chronicle_oracle::rust::{nation_events, Rust};
use chronicle_trial::extremes::{self, yearly};
use chronicle_trial::generate::{at_limits, counts_of, sized};
use chronicle_trial::model;
use chronicle_trial::pack::{pack, Campaign};
use chronicle_trial::rows::{entry_words, nation_words};
use chronicle_trial::told::Told;
use eu4save::query::{LedgerPoint, NationEvents};

use crate::race::{self, heading, spent, Timed};

const POINTS: [usize; 4] = [125_000, 250_000, 500_000, 1_000_000];

/// At the limits, growing, and refused.
pub fn all(rounds: usize) {
    let limits = given(in_our_era(at_limits()));
    let unswitched = given(in_our_era(with_points(1_000_000)));
    let drawn = given((extremes::ALL[1].1)());
    let cases = [
        ("every count at its limit", &limits),
        ("a name for each nation, no switch", &unswitched),
        ("years that fall, own tags", &drawn),
    ];
    type Way = (&'static str, fn(&Given) -> Option<Timed>);
    let ways: [Way; 4] = [
        ("each nation by its own calls, room asked for", each),
        ("the same, our checks of the record subtracted", each_unchecked),
        ("all nations by one call", together),
        ("all nations as values, their room found", as_values),
    ];
    for (way, ours) in ways {
        heading(&format!("nation ledgers, Y = 1,000,000: {way}"));
        cases.iter().for_each(|(name, given)| race(name, given, rounds, ours));
    }
    heading("nation ledgers: growth in points, all nations by one call");
    for points in POINTS {
        let given = given(in_our_era(with_points(points)));
        race(&format!("{points} points"), &given, rounds, together);
    }
    refusal(rounds);
}

/// From 1440 to 1939, with a value for every year.
fn in_our_era(mut campaign: Campaign) -> Campaign {
    (campaign.start, campaign.current) = (14400101, 19391231);
    let points = campaign.ledger.iter().map(|name| name.points.len()).max().unwrap_or(0);
    let mut campaign = yearly(campaign);
    campaign.ledger.iter_mut().for_each(|name| name.points.truncate(points));
    campaign
}

fn with_points(points: usize) -> Campaign {
    let counts = [('C', 2_000), ('P', 8_000), ('E', 60_000), ('G', 2_000), ('Y', points)];
    sized(&counts_of(&counts), 1)
}

/// What both are given.
struct Given {
    rust: Rust,
    theirs: Vec<NationEvents>,
    record: Vec<u8>,
    nations: Vec<u32>,
    entries: Vec<u32>,
    rows: usize,
    points: usize,
}

fn given(campaign: Campaign) -> Given {
    let nations = model::chronicle(&campaign).nations;
    Given {
        rust: Rust::of(&campaign),
        theirs: nations.iter().map(nation_events).collect(),
        record: pack(&campaign),
        nations: nation_words(&nations),
        entries: entry_words(&nations),
        rows: nations.iter().map(|nation| model::ledger(&campaign, nation).len()).sum(),
        points: campaign.ledger.iter().map(|name| name.points.len()).sum(),
    }
}

fn race(name: &str, given: &Given, rounds: usize, ours: fn(&Given) -> Option<Timed>) {
    race::race(name, given.points, rounds, &mut || Some(theirs(given)), &mut || ours(given));
}

fn theirs(given: &Given) -> Timed {
    let before = spent();
    let of = |nation| black_box(&given.rust).ledger_points(nation);
    let ledgers: Vec<Vec<LedgerPoint>> = black_box(given.theirs.iter().map(of).collect());
    let time = spent() - before;
    (ledgers.iter().map(Vec::len).sum(), time)
}

mod library {
    use super::*;
    use chronicle::raw::{check, Chronicle};
    use chronicle::Refusal;
    use chronicle_oracle::timed::Times;
    use chronicle_trial::extremes::{overlong, OVERLONG_WORDS};
    use std::time::Duration;

    const ROOM: &str = "there is room for every row";

    fn lent(given: &Given) -> Chronicle<'_> {
        Chronicle { nations: &given.nations, entries: &given.entries }
    }

    /// A nation's ledger by two calls: how much room it needs, and the rows.
    fn alone(given: &Given, nation: usize) -> Vec<u32> {
        let (rows, record) = (lent(given), black_box(&given.record[..]));
        let count = rows.nation_ledger_rows(record, nation, given.rows).expect("it is listed");
        let mut out = vec![0; LEDGER_WORDS * count];
        rows.nation_ledger(record, nation, &mut out).expect(ROOM);
        out
    }

    fn rows(ledgers: &[Vec<u32>]) -> usize {
        ledgers.iter().map(|words| words.len() / 3).sum()
    }

    /// Every nation by calls of its own.
    pub fn each(given: &Given) -> Option<Timed> {
        let before = spent();
        let ledgers: Vec<Vec<u32>> =
            black_box((0..given.theirs.len()).map(|nation| alone(given, nation)).collect());
        let time = spent() - before;
        Some((rows(&ledgers), time))
    }

    /// Each of the two calls checks the record: two checks by themselves, behind each nation's calls.
    pub fn each_unchecked(given: &Given) -> Option<Timed> {
        let (mut calls, mut checks) = (Duration::ZERO, Duration::ZERO);
        let mut ledgers = Vec::new();
        for nation in 0..given.theirs.len() {
            let before = spent();
            ledgers.push(black_box(alone(given, nation)));
            let between = spent();
            (0..2).for_each(|_| assert_eq!(black_box(check(black_box(&given.record))), Ok(())));
            calls += between - before;
            checks += spent() - between;
        }
        Some((rows(&ledgers), calls.saturating_sub(checks)))
    }

    /// The cells have been written before, as those of a host that lends them again.
    pub fn together(given: &Given) -> Option<Timed> {
        let (mut out, mut counts) =
            (vec![1; LEDGER_WORDS * given.rows], vec![1; given.theirs.len()]);
        let before = spent();
        let rows = lent(given).nation_ledgers(black_box(&given.record), &mut out, &mut counts);
        let time = spent() - before;
        black_box((&out, &counts));
        Some((rows.expect(ROOM), time))
    }

    /// All nations by one call, as values in memory of their own.
    pub fn as_values(given: &Given) -> Option<Timed> {
        let before = spent();
        let ledgers = lent(given).ledgers(black_box(&given.record), given.rows).expect(ROOM);
        let time = spent() - before;
        Some((ledgers.iter().map(Vec::len).sum(), time))
    }

    /// A ledger longer than 32 bits can count (Rules 7.10): with a few cells lent it is refused
    /// without a walk through all rows.
    pub fn refusal(rounds: usize) {
        let (campaign, nation) = overlong();
        let record = pack(&campaign);
        let nations = std::slice::from_ref(&nation);
        let [nations, entries] = [nation_words(nations), entry_words(nations)];
        let rows = Chronicle { nations: &nations, entries: &entries };
        println!("\na ledger of {OVERLONG_WORDS} words; milliseconds: best, median");
        let ways: [(&str, &dyn Fn()); 3] = [
            ("nation_ledger, three cells lent", &|| {
                let refused = rows.nation_ledger(&record, 0, &mut [0; 3]);
                assert_eq!(refused, Err(Refusal::NoRoom(None)));
            }),
            ("nation_ledgers, three cells lent", &|| {
                let refused = rows.nation_ledgers(&record, &mut [0; 3], &mut [0]);
                assert_eq!(refused, Err(Refusal::NoRoom(None)));
            }),
            ("nation_ledger_rows, all counted", &|| {
                let counted = rows.nation_ledger_rows(&record, 0, usize::MAX);
                assert_eq!(counted, Ok(OVERLONG_WORDS / 3));
            }),
        ];
        for (name, call) in ways {
            let time = || {
                let before = spent();
                call();
                spent() - before
            };
            let times = Times::of((0..rounds.max(1)).map(|_| time()).collect());
            let Times { best, median } = times.expect("one round at least");
            println!("{name:<40} {best:>9.3} {median:>9.3}");
        }
    }
}

use library::{as_values, each, each_unchecked, refusal, together};
