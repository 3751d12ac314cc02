//! Ledgers through the C functions: the rules in small cases, every number, every cell, and the
//! stack.

use std::thread;

use chronicle::raw::Chronicle;
use chronicle::Refusal;
use chronicle_trial::adversary::ledgers;
use chronicle_trial::generate::Random;
use chronicle_trial::pack::{pack, Campaign, LedgerName, Point, Tag};
use chronicle_trial::rows::{entry_words, ledger_words, nation_words, LedgerRow, Nation};
use chronicle_trial::told::Told;
use chronicle_trial::trial::{self, ledger_told, ledgers_told, rows_told};
use chronicle_trial::{edges, extremes, model, sample, unpack::unpack};

const ENG: u32 = 0x45_4e_47;
const NOR: u32 = 0x4e_4f_52;
const SCO: u32 = 0x53_43_4f;
const XXX: u32 = 0x58_58_58;
const LA0: u32 = 0x4c_41_30;
const ST0: u32 = 0x53_54_30;

/// ENG, annexed, then SCO; NOR, come and gone; NOR, gone and back; and one without a ledger row.
#[rustfmt::skip]
const OWNERS: Chronicle<'_> = Chronicle {
    nations: &[
        ENG, LA0, ST0, 0, 2,
        NOR, LA0, ST0, 2, 2,
        NOR, LA0, ST0, 4, 2,
        XXX, LA0, ST0, 6, 0,
    ],
    entries: &[
        14470101, 2, 0,
        14480101, 0, SCO,
        14450101, 1, 0,
        14460101, 2, 0,
        14450101, 2, 0,
        14470101, 1, 0,
    ],
};

fn name(tag: &Tag, points: &[(u16, i32)]) -> LedgerName {
    let point = |&(year, value): &(u16, i32)| Point { year, value };
    LedgerName { tag: *tag, points: points.iter().map(point).collect() }
}

fn accounts() -> Campaign {
    let ledger = vec![
        name(b"ENG", &[(1443, 1), (1444, 6), (1446, -1), (1443, 3), (1449, 4), (1447, 5)]),
        name(b"NOR", &[(1444, 1), (1445, 2), (1447, 3)]),
        name(b"ENG", &[(1445, 99)]),
        name(b"SCO", &[(1450, 7)]),
    ];
    Campaign { start: 14440601, current: 14500101, ledger, ..Campaign::default() }
}

fn rows(tag: u32, points: &[(u32, u32)]) -> Vec<u32> {
    points.iter().flat_map(|&(year, value)| [tag, year, value]).collect()
}

/// The ledgers of the four.
fn told() -> [Vec<u32>; 4] {
    let twice = [(1444, 6), (1445, 0), (1446, u32::MAX), (1443, 3), (1444, 0), (1445, 0)];
    let (till_1447, till_1448) = ([(1446, 0), (1447, 0)], [(1446, 0), (1447, 0), (1448, 0)]);
    let sco = [(1449, 0), (1450, 7)];
    let switched = [
        rows(ENG, &twice),
        rows(ENG, &till_1447),
        rows(ENG, &twice),
        rows(ENG, &till_1448),
        rows(SCO, &sco),
    ];
    let gone = rows(NOR, &[(1445, 2), (1446, 0)]);
    let back = [(1444, 1), (1445, 2), (1447, 3), (1448, 0), (1449, 0), (1450, 0)];
    [switched.concat(), gone, rows(NOR, &back), vec![]]
}

/// The cases that stand computed in crates/rules/specs/cases/LentCases.antt, by the code.
#[test]
fn cases_of_the_rules() {
    let record = pack(&accounts());
    for (nation, (words, cells)) in told().iter().zip([57, 7, 18, 0]).enumerate() {
        assert_eq!(ledger_told(OWNERS, &record, nation, cells, Ok(words)), Ok(()));
    }
    assert_eq!(ledger_told(OWNERS, &record, 1, 5, Err(Refusal::NoRoom(None))), Ok(()));
    assert_eq!(ledger_told(OWNERS, &record, 4, 5, Err(Refusal::NoSuchNation)), Ok(()));
    let empty = Chronicle { nations: &[], entries: &[] };
    assert_eq!(ledger_told(empty, &record, 0, 5, Err(Refusal::NoSuchNation)), Ok(()));
    let nations = [OWNERS.nations, &[7]].concat();
    let torn = Chronicle { nations: &nations, ..OWNERS };
    assert_eq!(ledger_told(torn, &record, 4, 5, Err(Refusal::NotWellShaped)), Ok(()));
    let mut spoiled = record;
    spoiled[3] = 2;
    assert_eq!(ledger_told(torn, &spoiled, 4, 5, Err(Refusal::UnknownVersion)), Ok(()));
}

#[test]
fn every_room_and_every_number() {
    let record = pack(&accounts());
    for (nation, words) in told().iter().enumerate() {
        for length in 0..=60 {
            let expected =
                if length < words.len() { Err(Refusal::NoRoom(None)) } else { Ok(&words[..]) };
            assert_eq!(ledger_told(OWNERS, &record, nation, length, expected), Ok(()));
            let count = length.min(words.len() / 3);
            assert_eq!(rows_told(OWNERS, &record, nation, length, Ok(count)), Ok(()));
        }
    }
    let (words, counts) = (told().concat(), [19, 2, 6, 0]);
    for lengths in (0..=words.len() + 3).flat_map(|out| (0..=6).map(move |of| [out, of])) {
        let fits = lengths[0] >= words.len() && lengths[1] >= counts.len();
        let expected =
            if fits { Ok((&words[..], &counts[..])) } else { Err(Refusal::NoRoom(None)) };
        assert_eq!(ledgers_told(OWNERS, &record, lengths, expected), Ok(()));
    }
}

/// What holds the library's cells against the expected ones says so where they differ.
#[test]
fn a_wrong_row_or_cell_is_noticed() {
    let (record, words) = (pack(&accounts()), told().concat());
    let own = &told()[0];
    for place in 0..own.len() {
        let mut wrong = own.clone();
        wrong[place] ^= 1;
        assert!(ledger_told(OWNERS, &record, 0, 57, Ok(&wrong)).is_err(), "{place}");
    }
    assert!(ledger_told(OWNERS, &record, 0, 60, Ok(&own[..54])).is_err());
    assert!(ledger_told(OWNERS, &record, 0, 57, Err(Refusal::NoRoom(None))).is_err());
    assert!(rows_told(OWNERS, &record, 0, 57, Ok(18)).is_err());
    for counts in [[18, 3, 6, 0], [19, 2, 0, 6]] {
        assert!(ledgers_told(OWNERS, &record, [90, 4], Ok((&words, &counts))).is_err());
    }
    assert!(ledgers_told(OWNERS, &record, [90, 5], Ok((&words, &[19, 2, 6, 0, 0]))).is_err());
}

/// The ledger of Rules 12.11.
#[test]
fn ledger_of_gbr() {
    let mut campaign = sample::worked();
    campaign.ledger = vec![name(b"ENG", &[(1445, 10), (1447, 12)]), name(b"GBR", &[(1449, 20)])];
    let nations = model::chronicle(&campaign).nations;
    let [words, entries] = [nation_words(&nations), entry_words(&nations)];
    let found = Chronicle { nations: &words, entries: &entries }.ledgers(&pack(&campaign), 6);
    let row = |tag: &Tag, year, value| LedgerRow { tag: *tag, year, value };
    let gbr = vec![
        row(b"ENG", 1445, 10),
        row(b"ENG", 1446, 0),
        row(b"ENG", 1447, 12),
        row(b"ENG", 1448, 0),
        row(b"GBR", 1449, 20),
        row(b"GBR", 1450, 0),
    ];
    assert_eq!(found, Ok(vec![gbr, vec![]]));
}

/// The library's ledgers of a campaign's own nations against the model's.
fn tried(record: &[u8], campaign: &Campaign) -> Result<(), String> {
    let nations = model::chronicle(campaign).nations;
    let expected: Vec<_> = nations.iter().map(|nation| model::ledger(campaign, nation)).collect();
    let each: Vec<usize> = (0..nations.len()).collect();
    trial::ledgers(record, &nations, &expected, &each)
}

#[test]
fn each_number_of_the_record_comes_first() {
    for edge in edges::all() {
        let outcome = match Refusal::from_number(edge.number) {
            Some(refusal) => trial::refused(&edge.record, refusal),
            None => tried(&edge.record, &unpack(&edge.record).expect("it is accepted")),
        };
        assert_eq!(outcome, Ok(()), "{}", edge.name);
    }
}

#[test]
fn small_campaigns() {
    let mut random = Random::new(1454);
    for _ in 0..5_000 {
        let campaign = ledgers::campaign(&mut random);
        assert_eq!(tried(&pack(&campaign), &campaign), Ok(()), "{campaign:#?}");
    }
}

/// Values and words are the same, whatever room was found for them.
#[test]
fn values() {
    let mut random = Random::new(1455);
    for _ in 0..300 {
        let campaign = ledgers::campaign(&mut random);
        let (record, nations) = (pack(&campaign), model::chronicle(&campaign).nations);
        let [words, entries] = [nation_words(&nations), entry_words(&nations)];
        let rows = Chronicle { nations: &words, entries: &entries };
        let expected: Vec<_> = nations.iter().map(|n| model::ledger(&campaign, n)).collect();
        let most = expected.iter().map(Vec::len).sum();
        assert_eq!(rows.ledgers(&record, most), Ok(expected.clone()));
        if most > 0 {
            assert_eq!(rows.ledgers(&record, most - 1), Err(Refusal::NoRoom(None)));
        }
        for (nation, ledger) in expected.into_iter().enumerate() {
            assert_eq!(rows.ledger(&record, nation, ledger.len()), Ok(ledger));
        }
        assert_eq!(rows.ledger(&record, nations.len(), most), Err(Refusal::NoSuchNation));
    }
    assert_eq!(OWNERS.ledgers(&[], 9), Err(Refusal::NotARecord));
}

/// More words than 32 bits count (Rules 7.10).
#[test]
fn an_overlong_ledger_is_refused() {
    let (campaign, nation) = extremes::overlong();
    let (record, nations) = (pack(&campaign), vec![nation; 3]);
    let [words, entries] = [nation_words(&nations), entry_words(&nations)];
    let rows = Chronicle { nations: &words, entries: &entries };
    for length in [0, 3, 60] {
        assert_eq!(ledger_told(rows, &record, 1, length, Err(Refusal::NoRoom(None))), Ok(()));
        assert_eq!(ledgers_told(rows, &record, [length, 3], Err(Refusal::NoRoom(None))), Ok(()));
    }
    let all = extremes::OVERLONG_WORDS / 3;
    for most in [0, 1, all - 1, all, all + 1, usize::MAX] {
        assert_eq!(rows_told(rows, &record, 2, most, Ok(all.min(most))), Ok(()));
    }
    assert_eq!(rows.ledger(&record, 0, 1_000_000), Err(Refusal::NoRoom(None)));
    assert_eq!(rows.ledgers(&record, 2_000_000), Err(Refusal::NoRoom(None)));
}

fn within_512_kib(call: impl FnOnce() + Send + 'static) {
    let thread = thread::Builder::new().stack_size(512 << 10).spawn(call);
    thread.expect("a thread starts").join().expect("the call ends well");
}

#[test]
fn half_a_mebibyte_of_stack_is_enough_at_the_limits() {
    for (name, campaign) in [extremes::ALL[4], extremes::ALL[7], extremes::ALL[10]] {
        let campaign = campaign();
        let nations: Vec<Nation> = model::chronicle(&campaign).nations;
        let ledgers: Vec<_> = nations.iter().map(|n| model::ledger(&campaign, n)).collect();
        assert!(ledgers.iter().all(|ledger| ledger.len() < 1_000_000));
        within_512_kib(move || {
            let outcome = trial::ledgers(&pack(&campaign), &nations, &ledgers, &[0]);
            assert_eq!(outcome, Ok(()), "{name}");
        });
    }
}

/// The words of one call for all nations are those of a call for each.
#[test]
fn all_at_once_or_one_by_one() {
    let record = pack(&accounts());
    let all = OWNERS.ledgers(&record, 27).expect("there is room");
    let words: Vec<u32> = all.iter().flat_map(|ledger| ledger_words(ledger)).collect();
    assert_eq!(words, told().concat());
}
