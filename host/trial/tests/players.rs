//! Players and the starting country through the C functions: the rules in small cases, every number,
//! every cell, and the stack.

use std::thread;

use chronicle::raw::{players, Chronicle};
use chronicle::Refusal;
use chronicle_trial::adversary::players::at_limits;
use chronicle_trial::pack::{pack, Campaign};
use chronicle_trial::rows::{entry_words, history_words, nation_words, tag_word};
use chronicle_trial::told::named_players;
use chronicle_trial::trial::{self, begun, played};
use chronicle_trial::{edges, extremes, model};

const IRONMAN: u8 = 1;
const MULTIPLAYER: u8 = 2;

/// Two for AAA, one of the name `Player`, one with a text too short for a tag, one with a byte that no
/// tag has, and a name without a text.
const PAIRS: [&str; 11] =
    ["Ann", "AAA", "Player", "BBB", "Bob", "BB", "Cid", "B_B", "Dan", "AAA", "Odd"];

fn named(flags: u8, strings: &[&str]) -> Vec<u8> {
    let strings = strings.iter().map(|text| text.as_bytes().to_vec()).collect();
    pack(&Campaign { flags, start: 14440101, current: 14500101, strings, ..Campaign::default() })
}

fn word(tag: &str) -> u32 {
    tag_word(tag.as_bytes().try_into().expect("a tag has three bytes"))
}

/// The cases that stand computed in crates/rules/specs/cases/PlayerCases.antt, by the code.
#[test]
fn cases_of_the_rules() {
    let [aaa, bbb] = ["AAA", "BBB"].map(word);
    assert_eq!(played(&named(IRONMAN, &PAIRS), 5, Ok(&[0, aaa, 8, aaa])), Ok(()));
    let mut record = named(MULTIPLAYER, &PAIRS);
    assert_eq!(played(&record, 6, Ok(&[0, aaa, 2, bbb, 8, aaa])), Ok(()));
    assert_eq!(played(&record, 5, Err(Refusal::NoRoom(None))), Ok(()));
    record[3] = 2;
    assert_eq!(played(&record, 5, Err(Refusal::UnknownVersion)), Ok(()));
}

/// The first and the last of these nations appeared, the second did not.
fn starters() -> [Vec<u32>; 2] {
    let rows = [("1", 0, 1), ("2", 1, 2), ("3", 3, 2)];
    let tags = |n: &str| ["IN", "LA", "ST"].map(|tag| word(&format!("{tag}{n}"))).to_vec();
    let nations = rows.map(|(number, first, count)| [tags(number), vec![first, count]].concat());
    let (came, went) = (1, 2);
    let entries = [
        [14450101, came, 0],
        [14450101, went, 0],
        [14460101, 0, word("LA2")],
        [14450101, went, 0],
        [14460101, came, 0],
    ];
    [nations.concat(), entries.concat()]
}

/// The history of a nation by its number + 1, or of none.
fn of(initial: &str, number: u32) -> [u32; 7] {
    [word(initial), word("LAT"), word("STO"), number, 0, 0, 0]
}

#[test]
fn starting_cases_of_the_rules() {
    let [nations, entries] = starters();
    let rows = Chronicle { nations: &nations, entries: &entries };
    let told = |histories: &[[u32; 7]], expected| {
        let words = histories.concat();
        assert_eq!(begun(rows, &words, 2, Ok(expected)), Ok(()));
        let without_room = expected.map_or(Ok(None), |_| Err(Refusal::NoRoom(None)));
        assert_eq!(begun(rows, &words, 0, without_room), Ok(()));
    };
    told(&[of("AAA", 1), of("BBB", 2), of("ABC", 3)], Some(*b"BBB"));
    told(&[of("AAA", 1), of("BBB", 0)], Some(*b"BBB"));
    told(&[of("AAA", 3)], Some(*b"AAA"));
    told(&[of("AAA", 1), of("BBB", 3)], None);
    told(&[of("AAA", 2), of("BBB", 0), of("ABC", 1)], None);
    told(&[], None);
}

#[test]
fn starting_shapes_of_the_rules() {
    let [mut nations, entries] = starters();
    let refused = |nations: &[u32], words: &[u32]| {
        for length in [0, 1, 3] {
            let rows = Chronicle { nations, entries: &entries };
            assert_eq!(begun(rows, words, length, Err(Refusal::NotWellShaped)), Ok(()));
        }
    };
    refused(&nations, &[&of("AAA", 3)[..], &[7]].concat());
    for place in 0..3 {
        let mut row = of("AAA", 1);
        row[place] = word("A_A");
        refused(&nations, &row);
    }
    refused(&nations, &of("AAA", 4));
    nations.push(7);
    refused(&nations, &of("AAA", 3));
}

/// What holds the library's cells against the expected ones says so where they differ.
#[test]
fn a_wrong_row_or_cell_is_noticed() {
    let aaa = word("AAA");
    let record = named(IRONMAN, &PAIRS);
    for wrong in [[0, aaa, 6, aaa], [0, aaa, 8, word("BBB")], [2, aaa, 8, aaa]] {
        assert!(played(&record, 5, Ok(&wrong)).is_err());
    }
    assert!(played(&record, 5, Ok(&[0, aaa])).is_err());
    assert!(played(&record, 4, Err(Refusal::NoRoom(None))).is_err());
    let rows = Chronicle { nations: &[], entries: &[] };
    assert!(begun(rows, &of("AAA", 0), 1, Ok(Some(*b"BBB"))).is_err());
    assert!(begun(rows, &of("AAA", 0), 1, Ok(None)).is_err());
    assert!(begun(rows, &of("AAA", 0), 1, Err(Refusal::NotWellShaped)).is_err());
}

#[test]
fn each_number_of_the_record_comes_first() {
    let mut numbers = [0; 10];
    for edge in edges::all() {
        numbers[usize::from(edge.number)] += 1;
        if let Some(refusal) = Refusal::from_number(edge.number) {
            assert_eq!(trial::refused(&edge.record, refusal), Ok(()), "{}", edge.name);
        } else {
            let campaign = chronicle_trial::unpack::unpack(&edge.record).expect("it is accepted");
            let expected = model::players(&campaign);
            assert_eq!(trial::players(&edge.record, &expected), Ok(()), "{}", edge.name);
        }
    }
    assert!(numbers.iter().all(|&times| times >= 5), "{numbers:?}");
}

/// Names of no byte and of as many as there may be, and the wrapper's own room, whatever the head says.
#[test]
fn values_for_any_name_and_any_head() {
    let longest = "é".repeat(127) + "x";
    let mut record = named(0, &["", "AAA", &longest, "BBB", "Player", "AAA"]);
    let found = named_players(&record).expect("there is room");
    let names: Vec<_> =
        found.iter().map(|player| (player.name.number, player.name.text())).collect();
    assert_eq!(names, [(0, Some("")), (2, Some(&longest[..]))]);
    assert_eq!(named_players(&[]), Err(Refusal::NotARecord));
    record[30..32].fill(255);
    assert_eq!(named_players(&record), Err(Refusal::SizesDisagree));
}

/// The room that is asked for is no larger than the answer, so that all pairs fit at once.
#[test]
fn five_hundred_pairs() {
    let campaign = at_limits(extremes::nations(1), 0);
    let mut out = vec![0; 1_000];
    assert_eq!(players(&pack(&campaign), &mut out), Ok(500));
    assert_eq!(out[998], 998);
}

#[test]
fn half_a_mebibyte_of_stack_is_enough_at_the_limits() {
    for (number, (name, campaign)) in extremes::ALL.into_iter().enumerate().take(3) {
        let campaign = at_limits(campaign(), number);
        let nations = model::chronicle(&campaign).nations;
        let histories = model::histories(&campaign, &nations);
        let start = model::starting_country(&histories, &nations);
        let words = [nation_words(&nations), entry_words(&nations), history_words(&histories)];
        let expected = model::players(&campaign);
        within_half_a_mebibyte(move || {
            let [nations, entries, histories] = words;
            let rows = Chronicle { nations: &nations, entries: &entries };
            assert_eq!(trial::players(&pack(&campaign), &expected), Ok(()), "{name}");
            assert_eq!(begun(rows, &histories, 2, Ok(start)), Ok(()), "{name}");
        });
    }
}

fn within_half_a_mebibyte(call: impl FnOnce() + Send + 'static) {
    let thread = thread::Builder::new().stack_size(512 * 1024).spawn(call);
    thread.expect("a thread starts").join().expect("the call ends well");
}
