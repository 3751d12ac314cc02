//! Times the proved `check` beside the independent checker, in one process.
//!
//! `bench [ROUNDS]`: best and median over so many rounds (default 201), the two taking turns; then
//! the stack that `check` and the functions beside it need.
//!
//! `bench --records FOLDER`: writes the first two records into it, for trial/c/plain_check.c.

use std::env;
use std::fs;
use std::hint::black_box;
use std::path::Path;
use std::process::{exit, Command, Stdio};
use std::thread;
use std::time::{Duration, Instant};

use chronicle::layout::{Counts, Enough, HEAD_COUNTS, LIMITS};
use chronicle::raw::check;
use chronicle_trial::generate::{about_600_kb, at_limits, counts_of, sized};
use chronicle_trial::pack::{pack, Campaign};
use chronicle_trial::told::Told;
use chronicle_trial::{number, reference};

/// A round lasts at least this long: shorter records are checked several times in one.
const ROUND: Duration = Duration::from_micros(200);

const STACK_ARGUMENT: &str = "--within-stack";
const RECORDS_ARGUMENT: &str = "--records";

/// A record's name, and what it holds.
type Named = (&'static str, fn() -> Campaign);

/// The two records the ratio is asked for.
const RECORDS: [Named; 2] = [("at limits", at_limits), ("600 KB", about_600_kb)];

fn main() {
    let arguments: Vec<String> = env::args().skip(1).collect();
    match arguments.iter().map(String::as_str).collect::<Vec<_>>()[..] {
        [] => run(201),
        [STACK_ARGUMENT, function, kib] => within_stack(parsed(function), parsed(kib)),
        [RECORDS_ARGUMENT, folder] => write_records(Path::new(folder)),
        [rounds] => run(parsed(rounds)),
        _ => usage(),
    }
}

fn parsed(text: &str) -> usize {
    text.parse().unwrap_or_else(|_| usage())
}

fn usage() -> ! {
    eprintln!("usage: bench [ROUNDS] | bench --records FOLDER");
    exit(2)
}

fn run(rounds: usize) {
    let rounds = rounds.max(1);
    compare(rounds);
    growth(rounds);
    alone('C', [250, 500, 1000, 2000], rounds);
    alone('P', [1000, 2000, 4000, 8000], rounds);
    stack();
}

fn write_records(folder: &Path) {
    for (name, campaign) in RECORDS {
        let path = folder.join(name.replace(' ', "_")).with_extension("atl");
        if let Err(error) = fs::write(&path, pack(&campaign())) {
            eprintln!("{}: {error}", path.display());
            exit(1)
        }
        println!("{}", path.display());
    }
}

fn compare(rounds: usize) {
    println!("times in µs, {rounds} rounds");
    println!("record        bytes | check: best   median | reference: best   median | ratio: best median");
    for (name, campaign) in RECORDS {
        let record = pack(&campaign());
        let [proved, independent] = measure(&record, rounds);
        println!(
            "{name:<10} {:>8} | {:>11.1} {:>8.1} | {:>15.1} {:>8.1} | {:>11.2} {:>6.2}",
            record.len(),
            proved.best,
            proved.median,
            independent.best,
            independent.median,
            proved.best / independent.best,
            proved.median / independent.median,
        );
    }
}

/// Every count at an eighth, a quarter and a half of its limit, and at it.
fn growth(rounds: usize) {
    println!("\ngrowth      bytes | check: best  ns/byte | reference: best  ns/byte | ratio");
    for part in [8, 4, 2, 1] {
        let record = pack(&sized(&part_of_limits(part), 1));
        print_row(&format!("1/{part}"), &record, record.len(), rounds);
    }
}

/// One kind of row alone: time per row must not rise with their number.
fn alone(letter: char, sizes: [usize; 4], rounds: usize) {
    println!(
        "\n{letter} alone     bytes | check: best   ns/row | reference: best   ns/row | ratio"
    );
    for size in sizes {
        let record = pack(&sized(&counts_of(&[(letter, size)]), 1));
        print_row(&size.to_string(), &record, size, rounds);
    }
}

fn print_row(name: &str, record: &[u8], units: usize, rounds: usize) {
    let [proved, independent] = measure(record, rounds);
    let per_unit = |times: &Times| 1000.0 * times.best / units as f64;
    println!(
        "{name:<8} {:>8} | {:>11.1} {:>8.3} | {:>15.1} {:>8.3} | {:>5.2}",
        record.len(),
        proved.best,
        per_unit(&proved),
        independent.best,
        per_unit(&independent),
        proved.best / independent.best,
    );
}

fn part_of_limits(part: usize) -> Counts {
    counts_of(&HEAD_COUNTS.map(|(letter, _, _, limit)| (letter, limit / part)))
}

/// Microseconds for one call.
struct Times {
    best: f64,
    median: f64,
}

impl Times {
    fn of(mut rounds: Vec<f64>) -> Times {
        rounds.sort_by(f64::total_cmp);
        Times { best: rounds[0], median: rounds[rounds.len() / 2] }
    }
}

fn proved(record: &[u8]) -> u8 {
    number(check(record))
}

/// The proved function and the independent one, by turns, so that both meet the same machine.
fn measure(record: &[u8], rounds: usize) -> [Times; 2] {
    let calls = calls_per_round(record);
    let mut times = [Vec::new(), Vec::new()];
    for _ in 0..rounds {
        times[0].push(time(proved, record, calls));
        times[1].push(time(reference::refusal_number, record, calls));
    }
    times.map(Times::of)
}

fn calls_per_round(record: &[u8]) -> u32 {
    let once = time(reference::refusal_number, record, 1).max(0.1);
    (ROUND.as_secs_f64() * 1e6 / once).ceil() as u32
}

fn time(checker: fn(&[u8]) -> u8, record: &[u8], calls: u32) -> f64 {
    let before = Instant::now();
    for _ in 0..calls {
        assert_eq!(black_box(checker(black_box(record))), 0);
    }
    before.elapsed().as_secs_f64() * 1e6 / f64::from(calls)
}

/// A function, the KiB of stack that it may need, and a call of it on a record at the limits.
type Stacked = (&'static str, usize, fn(&[u8]) -> bool);

const STACKED: &[Stacked] = &[
    ("check", 256, |record| check(record).is_ok()),
    ("province_owners", 1_024, |record| {
        let mut out = vec![0; LIMITS.enough().changes];
        chronicle::raw::province_owners(record, &mut out).is_ok()
    }),
    ("nation_events", 1_536, |record| {
        let Enough { nations, entries, holders, held, changes, counts, .. } = LIMITS.enough();
        let mut lent = [nations, entries, holders, held, changes, counts].map(|n| vec![0; n]);
        let [nations, entries, holders, held, changes, counts] =
            lent.each_mut().map(|cells| &mut cells[..]);
        let room = chronicle::raw::Room { nations, entries, holders, held, changes, counts };
        chronicle::raw::nation_events(record, room).is_ok()
    }),
    ("war_participants", 1_024, |record| {
        with_chronicle(record, usize::MAX, |rows| rows.bookings(record).is_ok())
    }),
    ("nation_ledger", 512, |record| {
        with_chronicle(record, usize::MAX, |rows| rows.ledger(record, 0, MOST_ROWS).is_ok())
    }),
    ("nation_ledgers", 512, |record| {
        with_chronicle(record, 8, |rows| rows.ledgers(record, MOST_ROWS).is_ok())
    }),
];

/// More rows than the ledgers of eight nations have there.
const MOST_ROWS: usize = 10_000_000;

/// Lends the chronicle of a record, of so many nations at most.
fn with_chronicle(
    record: &[u8],
    most: usize,
    call: impl Fn(chronicle::raw::Chronicle<'_>) -> bool,
) -> bool {
    use chronicle_trial::rows::{entry_words, nation_words};
    let campaign = chronicle_trial::unpack::unpack(record).expect("it is accepted");
    let mut nations = chronicle_trial::model::chronicle(&campaign).nations;
    nations.truncate(most);
    let [nations, entries] = [nation_words(&nations), entry_words(&nations)];
    call(chronicle::raw::Chronicle { nations: &nations, entries: &entries })
}

/// The smallest thread stack, in steps of 4 KiB, that each function gets by with; each size is
/// tried in a child process, because an overflow ends the process.
fn stack() {
    println!("\nstack of a thread that is enough (its own part included)");
    for (function, (name, most, _)) in STACKED.iter().enumerate() {
        if !survives(function, *most) {
            println!("{name}: {most} KiB are NOT enough");
            exit(1);
        }
        let (mut short, mut enough) = (16, *most);
        while short + 4 < enough {
            let between = (short + enough) / 8 * 4;
            match survives(function, between) {
                true => enough = between,
                false => short = between,
            }
        }
        println!("{name}: {enough} KiB");
    }
}

fn survives(function: usize, kib: usize) -> bool {
    let program = env::current_exe().expect("the running program has a path");
    Command::new(program)
        .args([STACK_ARGUMENT, &function.to_string(), &kib.to_string()])
        .stderr(Stdio::null())
        .status()
        .is_ok_and(|status| status.success())
}

fn within_stack(function: usize, kib: usize) {
    let record = pack(&at_limits());
    let (_, _, call) = STACKED[function];
    let calling = thread::Builder::new().stack_size(kib * 1024).spawn(move || call(&record));
    let answer = calling.expect("a thread starts").join();
    exit(i32::from(answer.ok() != Some(true)));
}
