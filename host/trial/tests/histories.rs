//! Histories through the C function: the rules in small cases, every room, names, and the stack.

use std::thread;

use chronicle::raw::{Chronicle, HistoryCounts};
use chronicle::Refusal;
use chronicle_trial::adversary::players::at_limits;
use chronicle_trial::pack::{pack, Campaign, Country};
use chronicle_trial::rows::{tag_word, Nation};
use chronicle_trial::told::Told;
use chronicle_trial::trial::{self, recalled};
use chronicle_trial::{edges, extremes, model};

const IRONMAN: u8 = 1;

/// Eve has a country without a history.
const ANN: [&str; 4] = ["Eve", "NON", "Ann", "AAA"];

fn word(tag: &str) -> u32 {
    tag_word(tag.as_bytes().try_into().expect("a tag has three bytes"))
}

fn country(tag: &str, flags: u8, num_of_cities: i32) -> Country {
    let tag = tag.as_bytes().try_into().expect("a tag has three bytes");
    Country { tag, flags, num_of_cities, ..Country::default() }
}

fn named(flags: u8, countries: Vec<Country>, strings: &[&str]) -> Vec<u8> {
    let strings = strings.iter().map(|text| text.as_bytes().to_vec()).collect();
    let (start, current) = (14440101, 14500101);
    pack(&Campaign { flags, start, current, countries, strings, ..Campaign::default() })
}

/// AAA is followed by two that are nobody's; NON was no player's, though a pair names it.
fn released(flags: u8, country_flags: u8, cities: i32, strings: &[&str]) -> Vec<u8> {
    let aaa = country("AAA", country_flags, cities);
    let others = [country("NON", 5, 1), country("LL1", 2, 0), country("LL2", 2, 0)];
    named(flags, [vec![aaa], others.to_vec()].concat(), strings)
}

/// The nation of AAA with a latest tag; two stored under LL2, of which the first counts.
fn lived(latest: &str) -> Vec<u32> {
    let row = |[initial, latest, stored]: [&str; 3], run: [u32; 2]| {
        [word(initial), word(latest), word(stored), run[0], run[1]]
    };
    [
        row(["NON", "NON", "NON"], [0, 0]),
        row(["IN0", latest, "AAA"], [0, 1]),
        row(["IN1", "LA1", "LL1"], [1, 0]),
        row(["IN2", "LA2", "LL2"], [1, 0]),
        row(["DUP", "DUP", "LL2"], [1, 0]),
    ]
    .concat()
}

fn history([initial, latest, stored]: [&str; 3], rest: [u32; 4]) -> Vec<u32> {
    [&[word(initial), word(latest), word(stored)][..], &rest].concat()
}

/// Asks of these nations, with so many cells lent.
fn asked(
    record: &[u8],
    nations: &[u32],
    lengths: [usize; 2],
    expected: Result<[&[u32]; 2], Refusal>,
) {
    let rows = Chronicle { nations, entries: &[14450101, 1, 0] };
    assert_eq!(recalled(rows, record, lengths, expected), Ok(()));
}

/// The cases that stand computed in crates/rules/specs/cases/PlayerCases.antt, by the code.
#[test]
fn released_cases_of_the_rules() {
    let aaa = lived("AAA");
    let taken = [
        history(["IN2", "AAA", "AAA"], [2, 1, 0, 1]),
        history(["IN1", "LA1", "LL1"], [3, 0, 1, 0]),
    ];
    asked(&released(IRONMAN, 7, 3, &ANN), &aaa, [15, 2], Ok([&taken.concat(), &[2]]));
    let kept = |flags: u8, country_flags: u8, cities: i32, latest: &str| {
        let rows = [
            history(["IN0", latest, "AAA"], [2, u32::from(country_flags & 1), 0, 1]),
            history(["IN1", "LA1", "LL1"], [3, 0, 1, 0]),
            history(["IN2", "LA2", "LL2"], [4, 0, 1, 0]),
        ];
        let record = released(flags, country_flags, cities, &ANN);
        asked(&record, &lived(latest), [21, 1], Ok([&rows.concat(), &[2]]));
    };
    kept(0, 7, 3, "AAA");
    kept(IRONMAN, 6, 3, "AAA");
    kept(IRONMAN, 3, 3, "AAA");
    kept(IRONMAN, 7, 0, "AAA");
    kept(IRONMAN, 7, -1, "AAA");
    kept(IRONMAN, 7, 3, "BBB");
    let two = [
        history(["IN0", "AAA", "AAA"], [2, 1, 0, 2]),
        history(["IN1", "LA1", "LL1"], [3, 0, 2, 0]),
        history(["IN2", "LA2", "LL2"], [4, 0, 2, 0]),
    ];
    let record = released(IRONMAN, 7, 3, &["Ann", "AAA", "Bob", "AAA"]);
    asked(&record, &aaa, [21, 2], Ok([&two.concat(), &[0, 2]]));
    let alone = named(IRONMAN, vec![country("AAA", 7, 3)], &ANN);
    asked(&alone, &aaa, [7, 1], Ok([&history(["IN0", "AAA", "AAA"], [2, 1, 0, 1]), &[2]]));
}

/// Two with players, so that nothing is taken: LL1, a row before them, goes last; BAR has no nation.
fn several() -> Vec<u8> {
    let countries = vec![country("LL1", 2, 0), country("AAA", 7, 3), country("BAR", 3, 0)];
    named(IRONMAN, countries, &["Ann", "BAR", "Bob", "AAA", "Cid", "BAR"])
}

fn several_told() -> Vec<u32> {
    let rows = [
        history(["IN0", "AAA", "AAA"], [2, 1, 0, 1]),
        history(["BAR", "BAR", "BAR"], [0, 1, 1, 2]),
        history(["IN1", "LA1", "LL1"], [3, 0, 3, 0]),
    ];
    rows.concat()
}

#[test]
fn history_cases_of_the_rules() {
    let (mut record, told) = (several(), several_told());
    let mut nations = lived("AAA");
    asked(&record, &nations, [21, 3], Ok([&told, &[2, 0, 4]]));
    asked(&record, &nations, [20, 3], Err(Refusal::NoRoom(None)));
    asked(&record, &nations, [21, 2], Err(Refusal::NoRoom(None)));
    nations.push(7);
    asked(&record, &nations, [20, 2], Err(Refusal::NotWellShaped));
    record[3] = 2;
    asked(&record, &nations, [20, 2], Err(Refusal::UnknownVersion));
}

#[test]
fn every_room_from_none_to_more_than_enough() {
    let told = several_told();
    for rows in 0..=24 {
        for names in 0..=5 {
            let fits = rows >= 21 && names >= 3;
            let expected =
                if fits { Ok([&told[..], &[2, 0, 4]]) } else { Err(Refusal::NoRoom(None)) };
            asked(&several(), &lived("AAA"), [rows, names], expected);
        }
    }
}

/// What holds the library's cells against the expected ones says so where they differ.
#[test]
fn a_wrong_row_or_cell_is_noticed() {
    let (record, nations, told) = (several(), lived("AAA"), several_told());
    let rows = Chronicle { nations: &nations, entries: &[14450101, 1, 0] };
    let outcome = |told: &[u32], names: &[u32]| recalled(rows, &record, [22, 4], Ok([told, names]));
    assert_eq!(outcome(&told, &[2, 0, 4]), Ok(()));
    for place in 0..told.len() {
        let mut wrong = told.clone();
        wrong[place] ^= 1;
        assert!(outcome(&wrong, &[2, 0, 4]).is_err(), "{place}");
    }
    for names in [&[0, 2, 4][..], &[2, 0], &[2, 0, 4, 4]] {
        assert!(outcome(&told, names).is_err(), "{names:?}");
    }
}

#[test]
fn values_with_names() {
    let nations = lived("AAA");
    let rows = Chronicle { nations: &nations, entries: &[14450101, 1, 0] };
    let mut record = several();
    let found = rows.named_histories(&record).expect("there is room");
    let texts: Vec<Vec<_>> =
        found.iter().map(|history| history.names.iter().map(|n| n.text()).collect()).collect();
    assert_eq!(texts, [vec![Some("Bob")], vec![Some("Ann"), Some("Cid")], vec![]]);
    assert_eq!(found[1].nation, None);
    assert_eq!(found[2].nation, Some(2));
    let counts = HistoryCounts { histories: 0, names: 0 };
    let nobody = named(IRONMAN, vec![country("AAA", 5, 1)], &["Ann", "AAA"]);
    assert_eq!(rows.player_histories(&nobody, &mut [], &mut []), Ok(counts));
    assert_eq!(rows.named_histories(&[]), Err(Refusal::NotARecord));
    record[14..16].fill(255);
    record[30..32].fill(255);
    assert_eq!(rows.named_histories(&record), Err(Refusal::SizesDisagree));
}

#[test]
fn each_edge_of_the_record() {
    for edge in edges::all().into_iter().filter(|edge| edge.number == 0) {
        let campaign = chronicle_trial::unpack::unpack(&edge.record).expect("it is accepted");
        let nations = model::chronicle(&campaign).nations;
        let expected = model::histories(&campaign, &nations);
        let outcome = trial::histories(&edge.record, &nations, &expected);
        assert_eq!(outcome, Ok(()), "{}", edge.name);
    }
}

/// More nations than a record has countries: five thousand, the last of them the only ones that count.
#[test]
fn lists_longer_than_the_limits() {
    let tag = |number: usize| [b'a' + (number / 625) as u8, b'0', b'A' + (number / 25 % 25) as u8];
    let nation = |number: usize| {
        let stored = if number < 4_998 { tag(number) } else { *b"LL1" };
        Nation { initial: tag(number), latest: stored, stored, entries: vec![] }
    };
    let nations: Vec<Nation> = (0..5_000).map(nation).collect();
    let record = several();
    let campaign = chronicle_trial::unpack::unpack(&record).expect("it is accepted");
    let expected = model::histories(&campaign, &nations);
    assert_eq!(expected[2].nation, Some(4_998));
    assert_eq!(trial::histories(&record, &nations, &expected), Ok(()));
}

#[test]
fn half_a_mebibyte_of_stack_is_enough_at_the_limits() {
    for (number, (name, campaign)) in extremes::ALL.into_iter().enumerate().take(3) {
        let campaign = at_limits(campaign(), number);
        let nations = model::chronicle(&campaign).nations;
        let expected = model::histories(&campaign, &nations);
        assert!(expected.len() >= 1_999, "{name}");
        let asked = move || trial::histories(&pack(&campaign), &nations, &expected);
        let thread = thread::Builder::new().stack_size(512 * 1024).spawn(asked);
        let outcome = thread.expect("a thread starts").join().expect("the call ends well");
        assert_eq!(outcome, Ok(()), "{name}");
    }
}
