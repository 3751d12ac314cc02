//! Campaigns at the limits of a record (Rules 1.4).

use chronicle_oracle::compare::compare_with;
use chronicle_oracle::seen::Seen;
use chronicle_oracle::{ledgers, resolving};
use chronicle_trial::adversary::players;
use chronicle_trial::extremes;
use chronicle_trial::pack::Campaign;

use crate::run::{Run, SOME};

/// Met by each campaign.
const MET: [&str; 5] = [
    "row: booking",
    "library: booking",
    "guarantee: a nation on a day",
    "row: player",
    "row: history",
];

/// Compares the first so many of them, and says how many there were.
pub fn all(run: &Run, extremes: usize, seed: u64) -> Result<usize, String> {
    for (number, (name, campaign)) in extremes::ALL.iter().take(extremes).enumerate() {
        eprintln!("at the limits, {name}");
        let told = one(run, &players::at_limits(campaign(), number), seed)
            .map_err(|difference| format!("{name}: {difference}"))?;
        println!("at the limits, {name}: no difference; {told}");
    }
    Ok(extremes.min(extremes::ALL.len()))
}

/// Compares a campaign, and tells what was met.
fn one(run: &Run, campaign: &Campaign, seed: u64) -> Result<String, String> {
    let mut seen = Seen::default();
    compare_with(run.rust(campaign), campaign, seed, SOME, &mut seen)
        .map_err(|difference| run.smallest(campaign, seed, &difference))?;
    for what in MET.into_iter().chain(ledgers::looked_for()) {
        if seen.times(what) == 0 {
            return Err(format!("never met at the limits: {what}"));
        }
    }
    let found = seen.times("answer: resolver, not none");
    let asked: usize = resolving::looked_for().map(|what| seen.times(what)).sum();
    let parts = [at_war(&seen), in_ledgers(&seen), at_play(&seen)].join("; ");
    Ok(format!(
        "resolver: {found} times somebody by the Rust, {asked} answers by the library; {parts}"
    ))
}

/// Bookings and the guarantee. The Rust gives fewer rows where a list is too large for it.
fn at_war(seen: &Seen) -> String {
    let times = |what: &str| seen.times(what);
    let [attacks, defends] = ["attacker", "defender"]
        .map(|side| times(&format!("guarantee: worn alone, joins as {side}")));
    format!(
        "bookings: {} rows by the Rust, {} by the library ({} of the lists too large for the \
         Rust); guarantee: {} pairs, {} worn alone, {} joining alone",
        times("row: booking"),
        times("library: booking"),
        times("list: too large for the Rust's resolver"),
        times("guarantee: a nation on a day"),
        times("guarantee: worn alone"),
        attacks + defends,
    )
}

fn in_ledgers(seen: &Seen) -> String {
    let times = |what: &str| seen.times(what);
    format!(
        "ledgers: {} rows by the Rust, {} and, of nations asked for alone, {} by the library",
        times("row: ledger point"),
        times("library: ledger row of all nations"),
        times("library: ledger row of a nation asked for alone"),
    )
}

/// Players, and histories by all lists of nations.
fn at_play(seen: &Seen) -> String {
    let times = |what: &str| seen.times(what);
    format!(
        "players: {} by the Rust; histories: {} by the Rust, {} by the library, with {} names",
        times("row: player"),
        times("row: history"),
        times("library: history"),
        times("library: name of a history"),
    )
}
