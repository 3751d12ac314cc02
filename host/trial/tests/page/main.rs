//! The page through the C function: the rules in small cases, each refusal, and every room.

mod limits;

use chronicle::Refusal;
use chronicle_trial::extremes::pages::{switched, to_and_fro};
use chronicle_trial::pack::{pack, Campaign, Country, OwnerEvent, Province, Switch};
use chronicle_trial::seal::Sealed;
use chronicle_trial::told::page;
use chronicle_trial::trial::{self, paged};
use chronicle_trial::{edges, model, sample, unpack::unpack};

const NO_ROOM: Result<Vec<u8>, Refusal> = Err(Refusal::NoRoom(None));

/// The page is this, in every room, and the model says so too.
#[track_caller]
fn is(record: &[u8], selection: impl AsRef<[u8]>, expected: &Result<Vec<u8>, Refusal>) {
    let selection = selection.as_ref();
    assert_eq!(&model::page(record, selection), expected);
    assert_eq!(trial::page(record, selection, expected), Ok(()));
}

#[track_caller]
fn prints(record: &[u8], selection: &str, expected: &str) {
    is(record, selection, &Ok(expected.into()));
}

#[test]
fn worked_record() {
    let two = "selected 2\nGBR ENG GBR 3 living\nFRA FRA FRA 0 living\n";
    prints(sample::WORKED, "GBR\nFRA\n", two);
    let two = "selected 2\nFRA FRA FRA 0 living\nGBR ENG GBR 3 living\n";
    prints(sample::WORKED, "FRA\nGBR\n", two);
}

#[test]
fn nothing_selected_is_one_line() {
    prints(sample::WORKED, "", "selected 0\n");
    let bare = Campaign { start: 14441111, current: 14441111, ..Campaign::default() };
    prints(&pack(&bare), "", "selected 0\n");
    assert_eq!(paged(&pack(&bare), b"", 10, Err(Refusal::NoRoom(None))), Ok(()));
}

#[test]
fn repeats_are_counted_and_told_again() {
    let twice = "selected 3\nGBR ENG GBR 3 living\nQQQ absent\nGBR ENG GBR 3 living\n";
    prints(sample::WORKED, "GBR\nQQQ\nGBR\n", twice);
}

/// Only the tag that a nation is stored under finds it, and only a listed one.
#[test]
fn absent() {
    prints(sample::WORKED, "ENG\n", "selected 1\nENG absent\n");
    prints(sample::WORKED, "---\ngbr\n0-z\n", "selected 3\n--- absent\ngbr absent\n0-z absent\n");
    let mut campaign = sample::worked();
    campaign.countries.push(Country { tag: *b"NOR", ..Country::default() });
    prints(&pack(&campaign), "NOR\n", "selected 1\nNOR absent\n");
}

/// France loses all it has on one day, and becomes somebody else, before that or after it.
fn annexed(switch: Option<u32>, back: Option<u32>) -> Vec<u8> {
    let events = [(14450101, *b"ENG")].into_iter().chain(back.map(|date| (date, *b"FRA")));
    let events = events.map(|(date, tag)| OwnerEvent { date, tag }).collect();
    let switches = switch.map(|date| Switch { date, from: *b"FRA" }).into_iter().collect();
    let tag = if switch.is_some() { *b"FRK" } else { *b"FRA" };
    pack(&Campaign {
        start: 14441111,
        current: 14600101,
        countries: vec![Country { tag, switches, ..Country::default() }],
        provinces: vec![Province { id: 1, owner: *b"FRA", events }],
        ..Campaign::default()
    })
}

#[test]
fn living_or_annexed() {
    prints(&annexed(None, None), "FRA\n", "selected 1\nFRA FRA FRA 1 annexed\n");
    prints(&annexed(None, Some(14460101)), "FRA\n", "selected 1\nFRA FRA FRA 2 living\n");
    // A switch says nothing about who lives, be it the last entry or the first.
    prints(&annexed(Some(14440601), None), "FRK\n", "selected 1\nFRK FRA FRK 2 annexed\n");
    prints(&annexed(Some(14550101), None), "FRK\n", "selected 1\nFRK FRA FRK 2 annexed\n");
    prints(&annexed(Some(14550101), Some(14460101)), "FRK\n", "selected 1\nFRK FRA FRK 3 living\n");
    let switched = pack(&switched(to_and_fro(0), 1));
    prints(&switched, "ENG\n", "selected 1\nENG ENG ENG 1 living\n");
}

/// One digit more at each power of ten, of tags and of entries, and never a zero in front.
#[test]
fn numbers_in_decimal() {
    for entries in [0, 1, 9, 10, 11, 99, 100, 999, 1_000, 1_009, 4_999, 5_000] {
        let record = pack(&switched(to_and_fro(0), entries));
        prints(&record, "ENG\n", &format!("selected 1\nENG ENG ENG {entries} living\n"));
    }
    for tags in [1, 9, 10, 99, 100, 101, 999, 1_000, 9_999, 10_000, 16_384] {
        let expected = format!("selected {tags}\n") + &"QQQ absent\n".repeat(tags);
        prints(sample::WORKED, &"QQQ\n".repeat(tags), &expected);
    }
}

#[test]
fn what_is_no_selection_is_12() {
    let refused = |bytes: &[u8]| is(sample::WORKED, bytes, &Err(Refusal::BadQuestion));
    for bytes in [
        &b"GBR"[..],
        b"GBR\nFRA",
        b"GBR\nF",
        b"GBR\nFR",
        b"\n",
        b"\nGBR\n",
        b"GBR\n\n",
        b"GBR\r\n",
        b"GBR FRA\n",
        b" GBR\n",
        b"GBR,FRA\n",
        b"GB\n",
        b"GBRX\n",
        b"G_R\n",
        b"GBR\0",
        b"\0\0\0\n",
        b"GB\xc3\n",
        b"\xef\xbb\xbfGBR\n",
        b"GB\n\n",
    ] {
        refused(bytes);
    }
    let good = |byte: u8| byte.is_ascii_alphanumeric() || byte == b'-';
    for byte in (0..=255).filter(|&byte| !good(byte)) {
        (0..3).for_each(|place| {
            let mut tag = *b"GBR\n";
            tag[place] = byte;
            refused(&tag);
        });
    }
    for end in (0..=255).filter(|&byte| byte != b'\n') {
        refused(&[b'G', b'B', b'R', end]);
    }
    // The last of very many is looked at as the first is.
    refused(&[&b"GBR\n".repeat(16_383)[..], b"GBR\r"].concat());
}

/// The record's number before 12; 12 before more changes than a page holds, and before room.
#[test]
fn several_things_are_wrong() {
    is(&sample::WORKED[..102], b"GBR", &Err(Refusal::SizesDisagree));
    is(b"", b"x", &Err(Refusal::NotARecord));
    is(&pack(&to_and_fro(4_001)), b"GBR", &Err(Refusal::BadQuestion));
    is(&pack(&to_and_fro(4_001)), b"GBR\n", &NO_ROOM);
    assert_eq!(paged(sample::WORKED, b"GBR", 0, Err(Refusal::BadQuestion)), Ok(()));
}

#[test]
fn each_number_of_the_record_comes_before_the_selection() {
    for edge in edges::all().into_iter().filter(|edge| edge.record.len() <= 65_536) {
        let page = model::page(&edge.record, b"GBR\nENG\n");
        if let Some(refusal) = Refusal::from_number(edge.number) {
            assert_eq!(page, Err(refusal), "{}", edge.name);
            assert_eq!(trial::refused(&edge.record, refusal), Ok(()), "{}", edge.name);
        }
        assert_eq!(trial::page(&edge.record, b"GBR\nENG\n", &page), Ok(()), "{}", edge.name);
    }
}

/// Record and selection lie at the end of what can be read, and nobody can write to them.
#[test]
fn nothing_behind_record_and_selection_is_read() {
    for length in 0..=103 {
        let record = Sealed::new(&sample::WORKED[..length]);
        for selection in ["", "G", "GBR", "GBR\n", "GBR\nF", "GBR\nFRA\n"] {
            let selection = Sealed::new(selection.as_bytes());
            let expected = model::page(record.bytes(), selection.bytes());
            assert_eq!(page(record.bytes(), selection.bytes()), expected);
        }
    }
}

/// Accepted and refused: the page's number is the record's, or there is a page.
#[test]
fn all_edges_of_the_record_print_or_refuse() {
    for edge in edges::all().into_iter().filter(|edge| edge.record.len() <= 65_536) {
        let answer = page(&edge.record, b"");
        let number = answer.as_ref().err().map_or(0, |refusal| refusal.number());
        assert_eq!(number, edge.number, "{}", edge.name);
        if number == 0 {
            assert!(unpack(&edge.record).is_ok());
            assert_eq!(answer, Ok(b"selected 0\n".to_vec()), "{}", edge.name);
        }
    }
}

/// What holds the library's bytes against the expected ones says so where they differ.
#[test]
fn a_wrong_byte_is_noticed() {
    let told = |text: &str| paged(sample::WORKED, b"FRA\n", 40, Ok(text.as_bytes()));
    assert_eq!(told("selected 1\nFRA FRA FRA 0 living\n"), Ok(()));
    assert!(told("selected 1\nFRA FRA FRA 0 livinG\n").is_err());
    assert!(told("selected 1\nFRA FRA FRA 0 living").is_err());
    assert!(paged(sample::WORKED, b"FRA\n", 32, Err(Refusal::NoRoom(None))).is_err());
}
