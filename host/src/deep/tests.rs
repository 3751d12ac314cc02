use std::fs;
use std::hint::black_box;
use std::thread::{self, ThreadId};

use super::{deep, stack, Depth};
use crate::layout::{Counts, Enough};
use crate::raw::{self, Chronicle, Room, LONGEST_PAGE};
use crate::Refusal;

/// Whether a call of this depth runs on the thread that makes it, of so many KiB.
fn runs_here(kib: usize, depth: Depth) -> bool {
    let call = move || {
        let here = thread::current().id();
        let there: Result<ThreadId, _> = deep(depth, || Ok(thread::current().id()));
        there == Ok(here)
    };
    let thread = thread::Builder::new().stack_size(kib << 10).spawn(call);
    thread.expect("it starts").join().expect("it ends")
}

/// The system may give a thread up to four times the stack that was asked for.
#[test]
fn on_a_thread_of_its_own_where_the_stack_is_small() {
    assert!(!runs_here(16, Depth::Check));
    assert!(!runs_here(256, Depth::Changes));
    assert!(!runs_here(256, Depth::Page));
}

/// 2 MiB are what a thread has that is started without a size.
#[cfg(all(target_os = "linux", target_arch = "x86_64"))]
#[test]
fn here_where_it_suffices() {
    assert!(runs_here(2_048, Depth::Page));
    assert!(runs_here(256, Depth::Check));
}

/// Makes the call when little more than so much stack is left.
#[inline(never)]
fn with_left(left: usize, call: fn() -> Result<(), Refusal>) -> Result<(), Refusal> {
    let used = black_box([0_u8; 2_048]);
    if stack::left().expect("the system tells") < left + 8_192 {
        return call();
    }
    let answer = with_left(left, call);
    black_box(used);
    answer
}

/// Makes the call on this thread, and on no other, with just as much stack as its depth says.
fn has_enough(depth: Depth, call: fn() -> Result<(), Refusal>) {
    let calls = move || with_left(depth as usize, call);
    let thread = thread::Builder::new().stack_size(8 << 20).spawn(calls);
    assert_eq!(thread.expect("it starts").join().expect("there is stack"), Ok(()), "{depth:?}");
}

fn record() -> Vec<u8> {
    fs::read("../samples/isles.atl").expect("the sample is there")
}

fn enough() -> Enough {
    Counts::read(record().first_chunk().expect("it has a head")).enough()
}

/// A small record, which takes the small arrays: that the large ones fit is tried in host/trial, tests/c_header/stacks.
#[cfg(all(target_os = "linux", target_arch = "x86_64"))]
#[test]
fn each_depth_is_enough() {
    const ROWS: Chronicle<'_> = Chronicle {
        nations: &[0x55_4c_53, 0x55_4c_53, 0x55_4c_53, 0, 1],
        entries: &[14660101, 2, 0],
    };
    has_enough(Depth::Check, || raw::check(&record()));
    has_enough(Depth::Changes, || raw::events_on(&record(), 14441111, &mut [0; 2]));
    has_enough(Depth::Rows, || raw::players(&record(), &mut [0; 9]).map(drop));
    has_enough(Depth::Changes, || raw::province_owners(&record(), &mut [0; 99]).map(drop));
    has_enough(Depth::Changes, || ROWS.war_participants(&record(), &mut [0; 99]).map(drop));
    has_enough(Depth::Changes, || {
        ROWS.resolve_each(&[0x55_4c_53, 14441111], &mut [0; 2]).map(drop)
    });
    has_enough(Depth::Rows, || ROWS.nation_ledger(&record(), 0, &mut [0; 99]).map(drop));
    has_enough(Depth::Rows, || ROWS.nation_ledger_rows(&record(), 0, 9).map(drop));
    has_enough(Depth::Rows, || ROWS.nation_ledgers(&record(), &mut [0; 99], &mut [0]).map(drop));
    has_enough(Depth::Rows, || {
        ROWS.player_histories(&record(), &mut [0; 99], &mut [0; 9]).map(drop)
    });
    has_enough(Depth::Rows, || ROWS.starting_country(&[], &mut []).map(drop));
    has_enough(Depth::Nations, || {
        let Enough { nations, entries, holders, held, changes, counts, .. } = enough();
        let mut lent = [nations, entries, holders, held, changes, counts].map(|n| vec![0; n]);
        let [nations, entries, holders, held, changes, counts] =
            lent.each_mut().map(|words| &mut words[..]);
        raw::nation_events(&record(), Room { nations, entries, holders, held, changes, counts })
    });
    has_enough(Depth::Page, || {
        raw::write_page(&record(), b"IRE\n", &mut vec![0; LONGEST_PAGE]).map(drop)
    });
}

/// The bytes that the header names for a call.
fn named(call: &str) -> usize {
    let header = include_str!("../../../include/chronicle.h");
    let (_, rest) = header.split_once(&format!("CHRONICLE_STACK_{call} = ")).expect(call);
    let (kib, _) = rest.split_once(" * 1024").expect(call);
    kib.parse::<usize>().expect(call) * 1024
}

#[test]
fn each_depth_is_more_than_the_header_names() {
    let depths = [
        (Depth::Check, &["CHECK"][..]),
        (Depth::Rows, &["PLAYERS", "LEDGERS"]),
        (Depth::Changes, &["OWNERS", "BOOKINGS", "EACH"]),
        (Depth::Nations, &["NATIONS"]),
        (Depth::Page, &["PAGE"]),
    ];
    for (depth, calls) in depths {
        assert!(calls.iter().all(|call| named(call) < depth as usize), "{depth:?}");
    }
}
