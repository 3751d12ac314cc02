//! Campaigns and damaged records that a seed draws, and pages near their limits.

use chronicle_oracle::{ledgers, paging, playing, resolving};
use chronicle_trial::adversary::players;
use chronicle_trial::cases::Cases;
use chronicle_trial::generate::Random;
use chronicle_trial::guarantee::Met;
use chronicle_trial::pack::pack;
use chronicle_trial::unpack::unpack;

use crate::limits;
use crate::progress::Progress;
use crate::run::{stored, Run, Stopped, SOME};

/// Shorter runs may miss a hard case by chance.
const ENOUGH: u64 = 10_000;

/// The program page is run for one of so many small campaigns.
const PRINTED: u64 = 50;

/// Met only where a comparison gets so far: looked for from the start, so that none is missed silently.
const LOOKED_FOR: [&str; 10] = [
    "answer: events_on",
    "answer: resolver, not none",
    "answer: starting country, not none",
    "library: booking",
    "record: refused",
    "row: booking",
    "row: history",
    "row: ledger point",
    "row: line of a page",
    "row: player",
];

/// Compares them all, and those at the limits, and says what was met; what each met at the limits is told apart. Gives
/// what was compared.
pub fn all(run: &mut Run, campaigns: u64, seed: u64, extremes: usize) -> Result<String, Stopped> {
    let of_the_library = resolving::looked_for()
        .chain(ledgers::looked_for())
        .chain(playing::looked_for())
        .chain(paging::looked_for());
    for what in LOOKED_FOR.into_iter().chain(of_the_library) {
        run.seen.add(what, 0);
    }
    run.seen.guarantee(&Met::default());
    small(run, campaigns, seed)?;
    damaged(run, campaigns / 4, seed)?;
    let pages = near_limits_of_pages(run, seed)?;
    let at_limits = limits::all(run, extremes, seed)?;
    println!("\n{}", run.seen);
    let never = run.seen.never();
    if campaigns >= ENOUGH && !never.is_empty() {
        let message = format!("never met, so the run says too little: {}", never.join("; "));
        return Err(Stopped::TooLittle(message));
    }
    let damaged = campaigns / 4;
    Ok(format!(
        "{campaigns} small campaigns, {damaged} damaged records, {pages} pages near their limits and {at_limits} \
         of the campaigns at the limits, seed {seed}"
    ))
}

fn small(run: &mut Run, campaigns: u64, seed: u64) -> Result<(), String> {
    let mut random = Random::new(seed);
    let mut program = paging::Printed::new(seed);
    let mut progress = Progress::of("small campaigns", campaigns);
    for number in 0..campaigns {
        progress.at(number);
        let campaign = players::campaign(&mut random);
        if number % PRINTED == 0 {
            program
                .compare(&campaign, &mut run.seen)
                .map_err(|error| stored(&pack(&campaign), &error))?;
        }
        run.campaign(&campaign, number, usize::MAX)?;
    }
    drop(progress);
    println!("{campaigns} small campaigns, seed {seed}: no difference");
    Ok(())
}

/// What the rules refuse, the Rust has no say in; what it accepts, all are asked about again.
fn damaged(run: &mut Run, records: u64, seed: u64) -> Result<(), String> {
    let mut cases = Cases::new(seed);
    let mut progress = Progress::of("damaged records", records);
    for number in 0..records {
        progress.at(number);
        let record = &cases.draw().record;
        match unpack(record) {
            Ok(campaign) => run.campaign(&campaign, number, SOME)?,
            Err(refusal) => run.refused(record, refusal)?,
        }
    }
    drop(progress);
    println!("{records} damaged records, seed {seed}: no difference");
    Ok(())
}

fn near_limits_of_pages(run: &mut Run, seed: u64) -> Result<usize, String> {
    let program = paging::Printed::new(seed);
    let mut seen = std::mem::take(&mut run.seen);
    let pages = paging::near_limits(
        |campaign| run.rust(campaign),
        &mut seen,
        |paged, selection, seen| program.selected(paged, selection, seen),
    )?;
    run.seen = seen;
    println!("{pages} pages near their limits, seed {seed}: no difference");
    Ok(pages)
}
