//! Every call in a thread of the size that the header names, C's and Rust's, on records at the limits.

use std::fs;
use std::path::PathBuf;
use std::process::Command;
use std::thread;

use chronicle::layout::{Counts, Enough};
use chronicle::raw::{self, Chronicle, Room};
use chronicle::rows::{ENTRY_WORDS, HISTORY_WORDS, LEDGER_WORDS, NATION_WORDS};
use chronicle::Refusal;
use chronicle_trial::adversary::players;
use chronicle_trial::extremes::{self, pages::whole_page};
use chronicle_trial::guarantee::Written;
use chronicle_trial::pack::pack;

use crate::compilers::{built, c99, run};
use crate::{declared, HEADER};

/// The sources of the program that runs the calls.
pub const SOURCES: [&str; 2] = ["stacks.c", "lend.c"];

/// Records at the limits: drawn, each country under its own tags, all events in one province.
const TRIED: [usize; 3] = [0, 1, 2];

/// Nations whose ledgers are asked for by one call.
const FEW: usize = 8;

fn stored(name: &str, bytes: &[u8]) -> PathBuf {
    let path = built(name);
    fs::write(&path, bytes).expect("a file is written");
    path
}

fn at_limits(number: usize) -> Vec<u8> {
    pack(&players::at_limits((extremes::ALL[number].1)(), number))
}

/// The C program with a page and a selection as large as may be, and one of the records. The name keeps tests
/// apart that run beside each other.
fn program(name: &str, number: usize) -> Command {
    given(c99().program(name, &SOURCES, &["-O1", "-pthread"]), name, number)
}

/// A run of the program on those files.
pub fn given(program: PathBuf, name: &str, number: usize) -> Command {
    let mut command = Command::new(program);
    command.arg(stored(&format!("{name}.atl"), &at_limits(number)));
    command.arg(stored(&format!("{name}_page.atl"), &pack(&whole_page(600))));
    command.arg(stored(&format!("{name}_selection"), "QQQ\n".repeat(16_384).as_bytes()));
    command
}

#[test]
fn every_call_in_a_c_thread_of_the_size_that_the_header_names() {
    for number in TRIED {
        let said = run(&mut program("stacks", number));
        assert_eq!(said.lines().count(), declared().len(), "{}:\n{said}", extremes::ALL[number].0);
    }
}

/// `cargo test --release -p chronicle_trial --test c_header -- --ignored --nocapture` prints what to name.
#[test]
#[ignore = "finds the least stack of each call, in steps of 4 KiB, and prints it"]
fn least_stacks() {
    let program = program("least", 0);
    for call in declared() {
        let survives = |kib: usize| {
            let mut command = Command::new(program.get_program());
            command.args(program.get_args()).arg(&call).arg(kib.to_string());
            command.output().is_ok_and(|output| output.status.success())
        };
        let (mut short, mut enough) = (12, 4_096);
        while short + 4 < enough {
            let between = (short + enough) / 8 * 4;
            match survives(between) {
                true => enough = between,
                false => short = between,
            }
        }
        println!("{call}: {enough} KiB");
    }
}

/// The bytes that the header names.
pub fn stack(name: &str) -> usize {
    let (_, rest) = HEADER.split_once(&format!("CHRONICLE_STACK_{name} = ")).expect(name);
    let (kib, _) = rest.split_once(" * 1024").expect(name);
    kib.parse::<usize>().expect(name) * 1024
}

/// Makes a call in a thread of that size.
fn within<T: Send>(name: &str, call: impl FnOnce() -> Result<T, Refusal> + Send) -> T {
    thread::scope(|scope| {
        let thread = thread::Builder::new().stack_size(stack(name)).spawn_scoped(scope, call);
        thread.expect("it starts").join().expect("it ends").expect("it is not refused")
    })
}

#[test]
fn every_call_in_a_rust_thread_of_the_size_that_the_header_names() {
    let record = &at_limits(0)[..];
    within("CHECK", || raw::check(record));
    let Enough { nations, entries, holders, held, changes, counts, .. } = enough(record);
    let lent = &mut [nations, entries, holders, held, changes, counts].map(|n| vec![0; n]);
    within("OWNERS", || raw::province_owners(record, &mut lent[4]));
    within("OWNERS", || raw::events_on(record, 14440228, &mut lent[5]));
    within("NATIONS", || {
        let [nations, entries, holders, held, changes, counts] =
            lent.each_mut().map(|cells| &mut cells[..]);
        raw::nation_events(record, Room { nations, entries, holders, held, changes, counts })
    });
    let selection = "QQQ\n".repeat(16_384);
    let page = pack(&whole_page(600));
    let mut out = vec![0; raw::page_room(selection.len())];
    within("PAGE", || raw::write_page(&page, selection.as_bytes(), &mut out));
    about_lent_rows(record);
}

fn enough(record: &[u8]) -> Enough {
    Counts::read(record.first_chunk().expect("a head")).enough()
}

fn about_lent_rows(record: &[u8]) {
    let Written { nations, entries, .. } = Written::of(record).expect("it is accepted");
    let rows = Chronicle { nations: &nations, entries: &entries };
    let (tag, day) = (nations[0], 99991231);
    within("RESOLVER", || rows.resolve(tag, day));
    within("RESOLVER", || rows.initial(tag));
    within("RESOLVER", || rows.resolve_at(day, tag, day));
    within("RESOLVER", || rows.initial_at(day, tag));
    let questions = [tag, day].repeat(100_000);
    let mut out = vec![0; questions.len()];
    within("EACH", || rows.resolve_each(&questions, &mut out));

    let Enough { bookings, players, histories, names, .. } = enough(record);
    let [mut out, mut names] = [bookings.max(players).max(histories), names].map(|n| vec![0; n]);
    within("BOOKINGS", || rows.war_participants(record, &mut out));
    within("PLAYERS", || raw::players(record, &mut out));
    let told = within("PLAYERS", || rows.player_histories(record, &mut out, &mut names));
    let histories = &out[..HISTORY_WORDS * told.histories];
    within("PLAYERS", || rows.starting_country(histories, &mut [0]));
    ledgers(record, &nations, &entries);
}

fn ledgers(record: &[u8], nations: &[u32], entries: &[u32]) {
    let nations = &nations[..NATION_WORDS * FEW];
    let [.., first, count] = nations else { unreachable!("a row has five words") };
    let rows = Chronicle { nations, entries: &entries[..ENTRY_WORDS * (first + count) as usize] };
    let counted =
        |nation| within("LEDGERS", move || rows.nation_ledger_rows(record, nation, usize::MAX));
    let all: usize = (0..FEW).map(counted).sum();
    let (mut out, mut counts) = (vec![0; LEDGER_WORDS * all], [0; FEW]);
    within("LEDGERS", || rows.nation_ledger(record, 0, &mut out));
    within("LEDGERS", || rows.nation_ledgers(record, &mut out, &mut counts));
}
