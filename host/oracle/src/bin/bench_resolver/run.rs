//! What is timed, and in which threads it runs.

use std::env;
use std::process::ExitCode;
use std::sync::Arc;
use std::thread;

use chronicle::rows::RESOLVED_WORDS;
use chronicle_oracle::timed::heading;
use chronicle_trial::extremes::{self, nations};
use chronicle_trial::model;
use chronicle_trial::pack::Campaign;
use chronicle_trial::rows::Nation;

use crate::lent::{Lent, FORMS};
use crate::made::{made, NATIONS};

/// Questions at once.
const MANY: usize = 100_000;

/// What the library sorts at a time: switches and nations together.
const BLOCK: usize = 24_576;

/// Switches of made lists: within a block; as many as it has; one more; two and three blocks.
const SWITCHES: [usize; 8] = [
    2_500,
    5_000,
    10_000,
    20_000,
    BLOCK - NATIONS,
    BLOCK - NATIONS + 1,
    2 * BLOCK - NATIONS,
    3 * BLOCK - NATIONS,
];

const QUESTIONS: [usize; 5] = [12_500, 25_000, 50_000, 100_000, 200_000];

/// Stack of the threads that calls are tried in, in KiB, the thread's own part included: for a
/// question, and for many.
const STACK_OF_ONE: usize = 32;
const STACK_OF_MANY: usize = 640;

pub fn main() -> ExitCode {
    let mut arguments = env::args().skip(1);
    let rounds = arguments.next().map_or(Ok(51), |text| text.parse());
    let (Ok(rounds), None) = (rounds, arguments.next()) else {
        eprintln!("usage: bench_resolver [ROUNDS]");
        return ExitCode::FAILURE;
    };
    let drawn = Lent::of(listed(&nations(1)));
    one_question(&drawn, rounds);
    all_records(rounds);
    growth(&drawn, rounds);
    stack(drawn);
    ExitCode::SUCCESS
}

fn listed(campaign: &Campaign) -> Vec<Nation> {
    model::chronicle(campaign).nations
}

fn one_question(drawn: &Lent, rounds: usize) {
    println!("one question, on the chronicle of a record at the limits; ns for an entry");
    println!("{}", heading("entries"));
    for form in FORMS {
        drawn.race_one(form.0, form, rounds);
    }
    println!("\none question, growth in switches; ns for a switch");
    println!("{}", heading("switches"));
    for switches in SWITCHES {
        Lent::of(made(switches)).race_one("resolve", FORMS[0], rounds);
    }
}

fn all_records(rounds: usize) {
    println!("\none question and many, on the chronicles of the records at the limits");
    println!("{}", heading("each"));
    for (name, campaign) in extremes::ALL {
        let lent = Lent::of(listed(&campaign()));
        lent.race_one(name, FORMS[0], rounds);
        lent.race_many("", MANY, rounds);
    }
}

fn growth(drawn: &Lent, rounds: usize) {
    println!("\nmany questions, growth in questions; ns for a question");
    println!("{}", heading("questions"));
    for asked in QUESTIONS {
        drawn.race_many("dates as drawn", asked, rounds);
    }
    println!("\nmany questions, growth in switches: one more pass for each block");
    println!("{}", heading("questions"));
    for switches in SWITCHES {
        let blocks = (switches + NATIONS).div_ceil(BLOCK);
        let name = format!("{switches} switches; blocks: {blocks}");
        Lent::of(made(switches)).race_many(&name, MANY, rounds);
    }
}

/// A thread that overflows its stack ends the process: that the line is printed says enough.
fn stack(lent: Lent) {
    let [one, many] = [STACK_OF_ONE, STACK_OF_MANY].map(|kib| kib << 10);
    let lent = Arc::new(lent);
    for (_, has) in FORMS {
        let lent = lent.clone();
        let asked = lent.single(has);
        within(one, move || asked.iter().for_each(|&question| _ = lent.ask(question)));
    }
    within(many, move || {
        let asked = lent.many(MANY);
        let mut out = vec![0; RESOLVED_WORDS * MANY];
        assert_eq!(lent.rows().resolve_each(asked.as_flattened(), &mut out), Ok(MANY));
    });
    println!("\nstack: each form ran in a thread of {STACK_OF_ONE} KiB, many questions in one of {STACK_OF_MANY} KiB");
}

fn within(stack: usize, call: impl FnOnce() + Send + 'static) {
    let calling = thread::Builder::new().stack_size(stack).spawn(call);
    calling.expect("a thread starts").join().expect("the calls end well");
}
