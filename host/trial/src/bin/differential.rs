//! Compares the proved `check` with the independent checker on many records, and tries the
//! guarantee (Rules 12.4 to 12.7) on those that are accepted.
//!
//! `differential [CALLS] [SEED]`; one difference ends the run, its record in difference.atl.

use std::env;
use std::process::ExitCode;

use chronicle::raw::check;
use chronicle_trial::cases::Cases;
use chronicle_trial::damage::Target;
use chronicle_trial::generate::{campaign, Knobs, Random};
use chronicle_trial::guarantee::{self, Met};
use chronicle_trial::pack::{pack, Campaign};
use chronicle_trial::unpack::unpack;
use chronicle_trial::{number, reference, sample, wars};

const DIFFERENCE: &str = "difference.atl";

/// Events of the war that is added.
const MORE_EVENTS: usize = 6;

fn main() -> ExitCode {
    let Some((calls, seed)) = arguments() else {
        eprintln!("usage: differential [CALLS] [SEED]");
        return ExitCode::FAILURE;
    };
    let mut run = Run { calls: 0, seen: [0; 10], random: Random::new(seed), met: Met::default() };
    let outcome = run.sweeps(calls, seed).and_then(|()| run.draws(calls, seed));
    if let Err(message) = outcome {
        eprintln!("{message}");
        return ExitCode::FAILURE;
    }
    run.report(seed)
}

fn arguments() -> Option<(u64, u64)> {
    let mut arguments = env::args().skip(1);
    let mut next = |default| match arguments.next() {
        Some(text) => text.parse().ok(),
        None => Some(default),
    };
    let given = (next(1_000_000)?, next(1)?);
    arguments.next().is_none().then_some(given)
}

/// How many records were tried, how often each number came, and what the guarantee met.
struct Run {
    calls: u64,
    seen: [u64; 10],
    random: Random,
    met: Met,
}

impl Run {
    /// Every damage to the worked record, then to drawn ones, for a fifth of the calls.
    fn sweeps(&mut self, calls: u64, seed: u64) -> Result<(), String> {
        let mut random = Random::new(seed);
        let mut record = sample::WORKED.to_vec();
        while self.calls < calls / 5 {
            let target = Target::new(record);
            self.compare(target.record())?;
            let mut damaged = Vec::new();
            for damage in target.sweep() {
                if self.calls >= calls / 5 {
                    break;
                }
                damaged.clear();
                damaged.extend_from_slice(target.record());
                damage.apply(&mut damaged);
                self.compare(&damaged)?;
            }
            record = pack(&campaign(&mut random, &Knobs::small()));
        }
        Ok(())
    }

    fn draws(&mut self, calls: u64, seed: u64) -> Result<(), String> {
        let mut cases = Cases::new(seed);
        while self.calls < calls {
            self.compare(&cases.draw().record)?;
        }
        Ok(())
    }

    fn compare(&mut self, record: &[u8]) -> Result<(), String> {
        let proved = number(check(record));
        let independent = reference::refusal_number(record);
        self.calls += 1;
        self.seen[usize::from(independent)] += 1;
        if proved != independent {
            let differs = format!("check gives {proved}, the independent checker {independent}");
            return Err(self.stored(record, &differs));
        }
        match unpack(record) {
            Ok(campaign) => self.guarantee(record, campaign),
            Err(_) => Ok(()),
        }
    }

    /// Tries the guarantee on an accepted record, and on the same with one war more.
    fn guarantee(&mut self, record: &[u8], mut campaign: Campaign) -> Result<(), String> {
        let (random, met) = (&mut self.random, &mut self.met);
        let war = wars::draw(random, &campaign, 1, MORE_EVENTS);
        if let Err(error) = guarantee::tried(record, &campaign, usize::MAX, random, met) {
            return Err(self.stored(record, &error));
        }
        campaign.wars.extend(war);
        let record = pack(&campaign);
        guarantee::tried(&record, &campaign, usize::MAX, random, met)
            .map_err(|error| self.stored(&record, &error))
    }

    fn stored(&self, record: &[u8], message: &str) -> String {
        let stored = match std::fs::write(DIFFERENCE, record) {
            Ok(()) => format!("the record is in {DIFFERENCE}"),
            Err(error) => format!("{DIFFERENCE} could not be written: {error}"),
        };
        format!("call {}: {message}; {stored}", self.calls)
    }

    fn report(&self, seed: u64) -> ExitCode {
        println!("{} calls, seed {seed}, no difference", self.calls);
        for (number, seen) in self.seen.iter().enumerate() {
            let share = 100.0 * *seen as f64 / self.calls.max(1) as f64;
            println!("{number:>3} {seen:>10}  {share:4.1} %");
        }
        if self.seen.contains(&0) {
            eprintln!("some number never came: the run says too little");
            return ExitCode::FAILURE;
        }
        print!("the guarantee on the accepted ones:\n{}", self.met);
        let never = self.met.never();
        if !never.is_empty() {
            eprintln!("never met, so the run says too little: {}", never.join("; "));
            return ExitCode::FAILURE;
        }
        ExitCode::SUCCESS
    }
}
