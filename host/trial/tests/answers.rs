//! The answers through the C functions: every cell against the model, on small campaigns, damaged
//! records and the limits. What the library does not have yet is left out by [`trial`].

use chronicle_trial::adversary::days_of;
use chronicle_trial::cases::Cases;
use chronicle_trial::generate::Random;
use chronicle_trial::pack::{pack, Campaign, OwnerEvent};
use chronicle_trial::unpack::unpack;
use chronicle_trial::{extremes, model, recount, sample, trial, wars};

fn tried(campaign: &Campaign, random: &mut Random) -> Result<(), String> {
    let chronicle = model::chronicle(campaign);
    let holders = recount::holders(campaign, &chronicle.changes);
    assert_eq!(chronicle.held, recount::held(campaign, &holders), "{campaign:#?}");
    assert_eq!(chronicle.holders, holders, "{campaign:#?}");
    let days = days_of(random, campaign);
    let asked = days.iter().take(50);
    let runs: Vec<_> = asked.map(|&day| (day, model::events_on(&chronicle.changes, day))).collect();
    let record = pack(campaign);
    trial::accepted(&record, &chronicle, &runs)?;
    let bookings = model::bookings(campaign, &chronicle.nations);
    trial::bookings(&record, &chronicle.nations, &bookings)
}

#[test]
fn worked_record() {
    assert_eq!(tried(&sample::worked(), &mut Random::new(1)), Ok(()));
}

#[test]
fn empty_campaign() {
    let campaign = Campaign { start: 10101, current: 10101, ..Campaign::default() };
    assert_eq!(tried(&campaign, &mut Random::new(1)), Ok(()));
}

#[test]
fn small_campaigns() {
    let mut random = Random::new(1453);
    for _ in 0..5_000 {
        let campaign = wars::campaign(&mut random);
        assert_eq!(tried(&campaign, &mut random), Ok(()), "{campaign:#?}");
    }
}

#[test]
fn damaged_records() {
    let mut random = Random::new(1);
    let mut cases = Cases::new(1492);
    for _ in 0..5_000 {
        let case = cases.draw();
        let outcome = match unpack(&case.record) {
            Ok(campaign) => tried(&campaign, &mut random),
            Err(refusal) => trial::refused(&case.record, refusal),
        };
        assert_eq!(outcome, Ok(()), "{case}");
    }
}

#[test]
fn campaigns_at_the_limits() {
    for (name, campaign) in extremes::ALL {
        assert_eq!(tried(&campaign(), &mut Random::new(1)), Ok(()), "{name}");
    }
}

/// Changes of one province that fall once: two runs of different lengths are merged where they stand. On each
/// day there are two in each run, so that they tie.
#[test]
fn changes_in_two_runs() {
    let drawn = extremes::in_order(extremes::owners(30_000, 1));
    let turns = [drawn.countries[1].tag, drawn.countries[0].tag];
    for first in [1_000, 15_000, 29_000] {
        let mut campaign = drawn.clone();
        campaign.provinces.truncate(1);
        campaign.provinces[0].owner = turns[1];
        campaign.provinces[0].events = (0..first)
            .chain(0..30_000 - first)
            .zip(turns.into_iter().cycle())
            .map(|(rank, tag)| OwnerEvent {
                date: (1500 + rank / 56) * 10_000 + 101 + rank % 56 / 2,
                tag,
            })
            .collect();
        assert_eq!(tried(&campaign, &mut Random::new(1)), Ok(()), "{first} in the first run");
    }
}

/// What a call needs of the stack does not depend on luck: the largest records in a small thread.
#[test]
fn owner_changes_in_one_mebibyte_of_stack() {
    let campaign = extremes::owners(60_000, 1);
    let changes = model::changes(&campaign);
    let run = model::events_on(&changes, 14500101);
    within(1 << 20, move || {
        let record = pack(&campaign);
        let mut out = vec![0; 4 * 60_000];
        let rows = chronicle::raw::province_owners(&record, &mut out);
        assert_eq!(rows, Ok(changes.len()));
        assert_eq!(chronicle::raw::events_on(&record, 14500101, &mut out), Ok(()));
        assert_eq!(out[..2], run.words());
    });
}

/// A record at the limits with what `nation_events` is to count there.
fn at_the_limits() -> (Vec<u8>, [u32; 5]) {
    let campaign = extremes::nations(1);
    let model::Chronicle { changes, nations, holders, held } = model::chronicle(&campaign);
    let entries = nations.iter().map(|nation| nation.entries.len()).sum();
    let counts = [nations.len(), entries, holders.len(), held.len(), changes.len()];
    (pack(&campaign), counts.map(|count| count as u32))
}

fn counts_are((record, expected): (Vec<u8>, [u32; 5])) {
    let mut lent = [2_000 * 5, 140_000 * 3, 8_001, 2_000, 60_000 * 4, 5].map(|n| vec![0; n]);
    let [nations, entries, holders, held, changes, counts] =
        lent.each_mut().map(|cells| &mut cells[..]);
    let room = chronicle::raw::Room { nations, entries, holders, held, changes, counts };
    assert_eq!(chronicle::raw::nation_events(&record, room), Ok(()));
    assert_eq!(lent[5], expected);
    assert!(expected.iter().all(|&count| count > 1_000), "the campaign is a large one");
}

#[test]
fn nations_in_one_and_a_half_mebibytes_of_stack() {
    let at_the_limits = at_the_limits();
    within(1_572_864, move || counts_are(at_the_limits));
}

/// Rust gives a thread that is started without a size 2 MiB, unless RUST_MIN_STACK says otherwise.
#[test]
fn nations_in_a_default_thread() {
    let at_the_limits = at_the_limits();
    let thread = std::thread::spawn(move || counts_are(at_the_limits));
    thread.join().expect("the call ends well");
}

fn within(stack: usize, call: impl FnOnce() + Send + 'static) {
    let thread = std::thread::Builder::new().stack_size(stack).spawn(call);
    thread.expect("a thread starts").join().expect("the call ends well");
}
