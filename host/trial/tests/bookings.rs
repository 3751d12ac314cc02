//! War bookings through the C function: the rules in small cases, every number, every cell, and
//! the stack.

use std::thread;

use chronicle::raw::Chronicle;
use chronicle::Refusal;
use chronicle_trial::pack::{pack, Campaign, Date, Tag, War, WarEvent};
use chronicle_trial::rows::{booking_words, entry_words, nation_words, tag_word, Booking, Nation};
use chronicle_trial::told::Told;
use chronicle_trial::trial::{self, booked};
use chronicle_trial::{edges, extremes, model, sample};

const ENG: u32 = 0x45_4e_47;
const GBR: u32 = 0x47_42_52;
const XXX: u32 = 0x58_58_58;
const LA0: u32 = 0x4c_41_30;
const ST0: u32 = 0x53_54_30;

/// ENG, now LA0, stored under ST0, went by GBR from the first of June on.
const ROWS: Chronicle<'_> =
    Chronicle { nations: &[ENG, LA0, ST0, 0, 1], entries: &[14480601, 0, GBR] };

fn event(date: Date, kind: u8, tag: &Tag) -> WarEvent {
    WarEvent { date, kind, tag: *tag }
}

/// War 0 has nobody who joins, war 2 no event, and GBR joins war 3 a day too early to be ST0's.
fn fought() -> Vec<u8> {
    let wars = [
        vec![event(14480601, 2, b"GBR")],
        vec![
            event(14480601, 0, b"GBR"),
            event(14480601, 1, b"ENG"),
            event(14480601, 3, b"ENG"),
            event(14480601, 4, b"GBR"),
        ],
        vec![],
        vec![event(14480531, 1, b"GBR"), event(14480601, 0, b"XXX")],
    ];
    let wars = wars.map(|events| War { events }).to_vec();
    pack(&Campaign { start: 14440601, current: 14500101, wars, ..Campaign::default() })
}

#[rustfmt::skip]
const BOOKED: [u32; 12] = [
    1, GBR, ST0,
    1, ENG, ST0,
    3, GBR, GBR,
    3, XXX, XXX,
];

/// The cases that stand computed in crates/rules/specs/cases/LentCases.antt, by the code.
#[test]
fn cases_of_the_rules() {
    let record = fought();
    for length in [12, 14] {
        assert_eq!(booked(ROWS, &record, length, Ok(&BOOKED)), Ok(()));
    }
    assert_eq!(booked(ROWS, &record, 11, Err(Refusal::NoRoom(None))), Ok(()));
    let torn = Chronicle { nations: &[ENG, LA0, ST0, 0, 1, 7], ..ROWS };
    assert_eq!(booked(torn, &record, 11, Err(Refusal::NotWellShaped)), Ok(()));
    let mut spoiled = record;
    spoiled[3] = 2;
    assert_eq!(booked(torn, &spoiled, 11, Err(Refusal::UnknownVersion)), Ok(()));
}

/// What holds the library's cells against the expected ones says so where they differ.
#[test]
fn a_wrong_row_or_cell_is_noticed() {
    for place in 0..BOOKED.len() {
        let mut wrong = BOOKED;
        wrong[place] ^= 1;
        assert!(booked(ROWS, &fought(), 12, Ok(&wrong)).is_err(), "{place}");
    }
    assert!(booked(ROWS, &fought(), 14, Ok(&BOOKED[..9])).is_err());
    assert!(booked(ROWS, &fought(), 12, Err(Refusal::NoRoom(None))).is_err());
    assert!(booked(ROWS, &fought(), 11, Ok(&BOOKED)).is_err());
}

#[test]
fn every_room_from_none_to_more_than_enough() {
    for length in 0..=20 {
        let expected = if length < 12 { Err(Refusal::NoRoom(None)) } else { Ok(&BOOKED[..]) };
        assert_eq!(booked(ROWS, &fought(), length, expected), Ok(()));
    }
}

/// The days of the known cases, with somebody at war on them: ENG is GBR's before the switch and after it,
/// GBR only from that day on.
#[test]
fn worked_record_at_war() {
    let mut campaign = sample::worked();
    let days = [14441110, 14441111, 14480531, 14480601, 14480602];
    let join = |&day| War { events: vec![event(day, 0, b"ENG"), event(day, 1, b"GBR")] };
    campaign.wars = days.iter().map(join).collect();
    let nations = model::chronicle(&campaign).nations;
    let stored = |war, tag: &Tag| Booking { war, tag: *tag, stored: *b"GBR" };
    let expected: Vec<Booking> =
        (0..days.len()).flat_map(|war| [stored(war, b"ENG"), stored(war, b"GBR")]).collect();
    assert_eq!(trial::bookings(&pack(&campaign), &nations, &expected), Ok(()));

    // With another stored tag it shows who is found: on the first days GBR stands for itself.
    campaign.countries[0].tag = *b"SCO";
    let nations = model::chronicle(&campaign).nations;
    assert_eq!(nations[0].stored, *b"SCO");
    let [words, entries] = [nation_words(&nations), entry_words(&nations)];
    let rows = Chronicle { nations: &words, entries: &entries };
    let found = rows.bookings(&pack(&campaign)).expect("there is room");
    assert!(found
        .iter()
        .all(|row| row.stored == if row.tag == *b"ENG" { *b"SCO" } else { *b"GBR" }));
}

#[test]
fn each_number_of_the_record_comes_first() {
    let mut numbers = [0; 10];
    for edge in edges::all() {
        numbers[usize::from(edge.number)] += 1;
        if let Some(refusal) = Refusal::from_number(edge.number) {
            assert_eq!(trial::refused(&edge.record, refusal), Ok(()), "{}", edge.name);
        } else {
            let campaign = chronicle_trial::unpack::unpack(&edge.record).expect("it is accepted");
            let nations = model::chronicle(&campaign).nations;
            let expected = model::bookings(&campaign, &nations);
            let outcome = trial::bookings(&edge.record, &nations, &expected);
            assert_eq!(outcome, Ok(()), "{}", edge.name);
        }
    }
    assert!(numbers.iter().all(|&times| times >= 5), "{numbers:?}");
}

/// The wrapper's own room is enough, whatever the head says.
#[test]
fn values_for_any_head() {
    assert_eq!(ROWS.bookings(&[]), Err(Refusal::NotARecord));
    let mut record = fought();
    let rows: Vec<u32> = booking_words(&ROWS.bookings(&record).expect("it is accepted"));
    assert_eq!(rows, BOOKED);
    record[34..38].fill(255);
    assert_eq!(ROWS.bookings(&record), Err(Refusal::SizesDisagree));
}

/// Two nations of 30,000 switches each, more than are sorted at a time, in a thread of 1 MiB.
#[test]
fn lists_longer_than_the_limits() {
    let tags: [Tag; 3] = [*b"ENG", *b"GBR", *b"FRA"];
    let nation = |initial: Tag, stored: Tag, first: usize| {
        let switch = |at: usize| {
            let date = 14440101 + ((at * 7 + first) % 28) as Date;
            let target = tags[(at / 3 + first) % 3];
            chronicle_trial::rows::Entry { date, kind: chronicle_trial::rows::Kind::Switch(target) }
        };
        Nation { initial, latest: stored, stored, entries: (0..30_000).map(switch).collect() }
    };
    let nations = vec![nation(*b"AAA", *b"--1", 0), nation(*b"BBB", *b"--2", 1)];
    let join = |number: usize| {
        let tag = [*b"ENG", *b"GBR", *b"FRA", *b"AAA", *b"BBB", *b"QQQ"][number % 6];
        WarEvent { date: 14440101 + (number % 28) as Date, kind: (number % 5) as u8, tag }
    };
    let wars = vec![War { events: (0..600).map(join).collect() }];
    let campaign = Campaign { start: 14440101, current: 14440101, wars, ..Campaign::default() };
    let expected = model::bookings(&campaign, &nations);
    assert_eq!(expected.len(), 240);
    within_one_mebibyte(move || {
        assert_eq!(trial::bookings(&pack(&campaign), &nations, &expected), Ok(()));
    });
}

#[test]
fn one_mebibyte_of_stack_is_enough_at_the_limits() {
    for (name, campaign) in [extremes::ALL[0], extremes::ALL[1], extremes::ALL[10]] {
        let campaign = campaign();
        let nations = model::chronicle(&campaign).nations;
        let expected = model::bookings(&campaign, &nations);
        assert!(expected.len() > 30_000, "{name}");
        within_one_mebibyte(move || {
            assert_eq!(trial::bookings(&pack(&campaign), &nations, &expected), Ok(()), "{name}");
        });
    }
}

fn within_one_mebibyte(call: impl FnOnce() + Send + 'static) {
    let thread = thread::Builder::new().stack_size(1 << 20).spawn(call);
    thread.expect("a thread starts").join().expect("the call ends well");
}

#[test]
fn tags_in_the_rows_are_those_of_the_record() {
    let record = fought();
    let found = ROWS.bookings(&record).expect("there is room");
    let tags: Vec<u32> = found.iter().map(|row| tag_word(row.tag)).collect();
    assert_eq!(tags, [GBR, ENG, GBR, XXX]);
}
