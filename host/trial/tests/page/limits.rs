//! As much as a page holds, and one more; and the stack that this needs.

use std::thread;

use chronicle::raw::LONGEST_PAGE;
use chronicle::Refusal;
use chronicle_trial::adversary::selections::selection;
use chronicle_trial::extremes::pages::{one_slot, padded, switched, to_and_fro, whole_page};
use chronicle_trial::pack::{pack, Tag};
use chronicle_trial::told::page;
use chronicle_trial::{model, sample};

use crate::{is, prints, NO_ROOM};

#[test]
fn bytes_at_the_limit_and_one_above() {
    let record = |bytes| pack(&padded(sample::worked(), bytes));
    let told = "selected 1\nGBR ENG GBR 3 living\n";
    prints(&record(65_535), "GBR\n", told);
    prints(&record(65_536), "GBR\n", told);
    is(&record(65_537), b"GBR\n", &NO_ROOM);
    let most = "QQQ\n".repeat(16_384);
    assert!(page(sample::WORKED, most.as_bytes()).is_ok());
    is(sample::WORKED, most.clone() + "Q", &NO_ROOM);
    is(sample::WORKED, most.clone() + "QQQ\n", &NO_ROOM);
    is(&record(65_536), &most[1..], &Err(Refusal::BadQuestion));
}

/// Too many bytes are found before anything else is looked at, of either.
#[test]
fn too_many_bytes_come_first() {
    is(&[0; 65_537], b"", &NO_ROOM);
    is(&[0; 65_537], b"GBR", &NO_ROOM);
    is(b"", [0; 65_537], &NO_ROOM);
    is(&sample::WORKED[..102], [0; 65_537], &NO_ROOM);
    is(&[0; 65_536], [0; 65_536], &Err(Refusal::NotARecord));
    is(sample::WORKED, [0; 65_536], &Err(Refusal::BadQuestion));
}

#[test]
fn changes_at_the_limit_and_one_above() {
    let told = "selected 2\nENG ENG ENG 0 living\nQQQ absent\n";
    prints(&pack(&to_and_fro(3_999)), "ENG\nQQQ\n", told);
    prints(&pack(&to_and_fro(4_000)), "ENG\nQQQ\n", told);
    for selection in ["ENG\nQQQ\n", "QQQ\n", ""] {
        is(&pack(&to_and_fro(4_001)), selection, &NO_ROOM);
    }
    // No country at all, and nothing selected: more changes are more than a page holds all the same.
    let mut nobody = one_slot(4_001);
    nobody.countries.clear();
    assert_eq!(pack(&nobody).len(), 28_058);
    is(&pack(&nobody), b"", &NO_ROOM);
    // Events that change nothing do not count.
    let mut again = to_and_fro(4_000);
    let last = *again.provinces[0].events.last().expect("4,000 events");
    again.provinces[0].events.extend([last; 500]);
    prints(&pack(&again), "ENG\nQQQ\n", told);
}

#[test]
fn entries_at_the_limit_and_one_above() {
    let record = |changes, switches| pack(&switched(one_slot(changes), switches));
    prints(&record(2_500, 0), "ENG\n", "selected 1\nENG ENG ENG 2500 annexed\n");
    prints(&record(2_499, 2), "FRA\n", "selected 1\nFRA FRA FRA 2499 annexed\n");
    for (changes, switches) in [(2_500, 1), (2_501, 0), (2_499, 3), (1, 4_999)] {
        is(&record(changes, switches), b"ENG\n", &NO_ROOM);
        is(&record(changes, switches), b"", &NO_ROOM);
    }
    // Of nations that are not listed none count.
    let unlisted = record(0, 5_001);
    prints(&unlisted, "ENG\nFRA\n", "selected 2\nENG absent\nFRA FRA FRA 0 living\n");
}

/// The longest page there can be: the wrapper has room for it, and one byte less is too little.
#[test]
fn longest_page() {
    let record = pack(&one_slot(2_500));
    let expected = "selected 16384\n".to_string() + &"ENG ENG ENG 2500 annexed\n".repeat(16_384);
    assert_eq!(expected.len(), LONGEST_PAGE);
    prints(&record, &"ENG\n".repeat(16_384), &expected);
    let expected = "selected 3121\n".to_string() + &"GBR ENG GBR 3 living\n".repeat(3_121);
    assert_eq!(expected.len(), 65_555);
    prints(sample::WORKED, &"GBR\n".repeat(3_121), &expected);
}

/// Every country of a large record, in an order of its own, as often as there is room for.
#[test]
fn every_nation_of_a_whole_page() {
    for countries in [600, 2_000] {
        let campaign = whole_page(countries);
        let tags: Vec<Tag> = campaign.countries.iter().map(|country| country.tag).collect();
        let tags: Vec<Tag> = tags.iter().rev().cycle().take(16_384).copied().collect();
        let record = pack(&campaign);
        let expected = model::page(&record, &selection(&tags));
        assert!(expected.as_ref().is_ok_and(|page| page.len() > 16_384 * 15), "{countries}");
        is(&record, selection(&tags), &expected);
    }
}

/// As much as a page holds, in a thread that is started without a size, and in one of less.
#[test]
fn stack_of_a_default_thread() {
    let call = || {
        for campaign in [whole_page(600), whole_page(2_000), one_slot(2_500), to_and_fro(4_000)] {
            let selection = "ENG\n".repeat(16_384);
            assert!(page(&pack(&campaign), selection.as_bytes()).is_ok());
        }
    };
    thread::spawn(call).join().expect("2 MiB are enough");
    let thread = thread::Builder::new().stack_size(STACK).spawn(call);
    thread.expect("a thread starts").join().expect("less is enough as well");
}

/// Tried; how little would be enough was not looked for.
const STACK: usize = 1_800 * 1024;
