//! The resolver through the C functions, lent words that anybody may have written: what is refused,
//! how much room an answer takes, and every cell.

use std::thread;

use chronicle::raw::Chronicle;
use chronicle::Refusal;
use chronicle_trial::generate::Random;
use chronicle_trial::lists::questions;
use chronicle_trial::model::{answer, nations_told};
use chronicle_trial::pack::{Date, Tag};
use chronicle_trial::rows::{Entry, Kind, Nation, Question};
use chronicle_trial::trial::{self, asked, asked_each};

const ENG: u32 = 0x45_4e_47;
const GBR: u32 = 0x47_42_52;
const FRA: u32 = 0x46_52_41;
const CAS: u32 = 0x43_41_53;
const SPA: u32 = 0x53_50_41;

const NATIONS: [u32; 15] = [ENG, GBR, GBR, 0, 3, FRA, FRA, FRA, 3, 0, CAS, SPA, SPA, 3, 2];

const ENTRIES: [u32; 15] = [
    14460101, 2, 0, 14470101, 1, 0, 14480601, 0, GBR, // of ENG
    14690101, 0, SPA, 14700101, 1, 0, // of CAS
];

/// Nothing, a byte that no tag has at each place, and a fourth byte before a tag.
const NO_TAGS: [u32; 7] = [0, 0x5f_4e_47, 0x45_20_47, 0x45_4e_80, 0x00_4e_47, 0x01_45_4e_47, !0];

/// Nothing, 29 February, day 0 and 31 of short months, months 0 and 13, years 0 and 10000.
const NO_DATES: [Date; 9] =
    [0, 14440229, 14440100, 14440431, 14440001, 14441301, 1231, 100000101, !0];

/// Words of a chronicle that a test alters.
#[derive(Clone, Debug)]
struct Words {
    nations: Vec<u32>,
    entries: Vec<u32>,
}

impl Words {
    fn good() -> Words {
        Words { nations: NATIONS.to_vec(), entries: ENTRIES.to_vec() }
    }

    fn rows(&self) -> Chronicle<'_> {
        Chronicle { nations: &self.nations, entries: &self.entries }
    }

    /// These nation words in place of the good ones.
    fn nation(places: &[(usize, u32)]) -> Words {
        let mut words = Words::good();
        places.iter().for_each(|&(place, word)| words.nations[place] = word);
        words
    }

    /// One entry word in place of the good one.
    fn entry(place: usize, word: u32) -> Words {
        let mut words = Words::good();
        words.entries[place] = word;
        words
    }
}

/// Each form with this tag and these dates.
fn forms(tag: u32, date: Date, day: Date) -> [Question; 4] {
    [
        Question::Resolve { tag, date },
        Question::Initial { tag },
        Question::ResolveAt { day, tag, date },
        Question::InitialAt { day, tag },
    ]
}

/// All five calls refuse, whatever the room, and write nothing.
fn refused(words: &Words, tag: u32, date: Date, day: Date, refusal: Refusal) {
    for length in [0, 1, 2, 9] {
        for question in forms(tag, date, day) {
            assert_eq!(asked(words.rows(), question, length, Err(refusal)), Ok(()), "{words:?}");
        }
        let each = asked_each(words.rows(), &[tag, date], length, Err(refusal));
        assert_eq!(each, Ok(()), "{words:?}");
    }
}

/// 11, also before a question that is 12 by itself, and of bookings whatever the room.
fn ill_shaped(what: &str, words: &Words) {
    assert_eq!(nations_told(&words.nations, &words.entries), None, "{what}");
    let good = 14480601;
    for (tag, date) in [(GBR, good), (FRA, good), (NO_TAGS[0], good), (GBR, NO_DATES[1])] {
        refused(words, tag, date, date, Refusal::NotWellShaped);
    }
    for questions in [&[][..], &[GBR], &[GBR, good, FRA]] {
        let each = asked_each(words.rows(), questions, 9, Err(Refusal::NotWellShaped));
        assert_eq!(each, Ok(()), "{what}");
    }
    for length in [0, 9] {
        let (rows, refusal) = (words.rows(), Refusal::NotWellShaped);
        let outcome = trial::booked(rows, chronicle_trial::sample::WORKED, length, Err(refusal));
        assert_eq!(outcome, Ok(()), "{what}");
    }
}

#[test]
fn good_words_are_answered_as_the_model_does() {
    let nations = nations_told(&NATIONS, &ENTRIES).expect("they are well shaped");
    let list = questions(&mut Random::new(1), &nations, &[*b"QQQ"], &[], usize::MAX);
    let answers: Vec<_> = list.iter().map(|&q| (q, answer(&nations, q))).collect();
    assert!(answers.len() > 1_000);
    assert_eq!(trial::resolver(&nations, &answers), Ok(()));
    for wrong in [0, 1, answers.len() / 2, answers.len() - 1] {
        let mut answers = answers.clone();
        answers[wrong].1 = answers.iter().find(|a| a.1 != answers[wrong].1).unwrap().1;
        assert!(trial::resolver(&nations, &answers).is_err(), "{wrong}");
    }
}

#[test]
fn rows_that_are_not_whole() {
    for left in (0..NATIONS.len()).filter(|left| left % 5 != 0) {
        let mut words = Words::good();
        words.nations.truncate(left);
        ill_shaped("part of a nation row", &words);
    }
    for left in (0..ENTRIES.len()).filter(|left| left % 3 != 0) {
        let mut words = Words::good();
        words.entries.truncate(left);
        ill_shaped("part of an entry row", &words);
    }
    for more in [&[0][..], &[14440101, 1], &[FRA, FRA, FRA, 5]] {
        let Words { nations, entries } = Words::good();
        let nations_and = [&nations, more].concat();
        ill_shaped("more nation words", &Words { nations: nations_and, entries: entries.clone() });
        let entries = [&entries, &more[..more.len().min(2)]].concat();
        ill_shaped("more entry words", &Words { nations, entries });
    }
}

#[test]
fn words_that_are_no_tag_date_or_kind() {
    for row in 0..3 {
        for (tag, word) in NO_TAGS.into_iter().flat_map(|word| [0, 1, 2].map(|tag| (tag, word))) {
            ill_shaped("no tag of a nation", &Words::nation(&[(5 * row + tag, word)]));
        }
    }
    for row in 0..5 {
        for word in NO_DATES {
            ill_shaped("no date", &Words::entry(3 * row, word));
        }
        for word in [3, 256, !0] {
            ill_shaped("no kind", &Words::entry(3 * row + 1, word));
        }
        let switches = ENTRIES[3 * row + 1] == 0;
        let no_targets = if switches { NO_TAGS } else { [GBR, 1, 2, 3, 0x2d2d2d, 256, !0] };
        for word in no_targets {
            ill_shaped("no target of its kind", &Words::entry(3 * row + 2, word));
        }
    }
    ill_shaped("a switch without target", &Words::entry(1, 0));
    ill_shaped("a target without switch", &Words::entry(7, 1));
}

#[test]
fn entries_that_do_not_follow_each_other() {
    let nation = Words::nation;
    ill_shaped("a gap", &nation(&[(13, 4), (14, 1)]));
    ill_shaped("an overlap", &nation(&[(13, 2), (14, 3)]));
    ill_shaped("the first not 0", &nation(&[(3, 1), (4, 2)]));
    ill_shaped("the first behind its entries", &nation(&[(3, !0)]));
    ill_shaped("an empty one's first is not where it stands", &nation(&[(8, 0)]));
    ill_shaped("one left over", &nation(&[(14, 1)]));
    ill_shaped("one missing", &nation(&[(14, 3)]));
    ill_shaped("more than can be", &nation(&[(14, !0)]));
    ill_shaped("right only in 32 bits", &nation(&[(9, !0), (13, 2), (14, 3)]));
    let Words { nations, entries } = Words::good();
    ill_shaped("no nation", &Words { nations: vec![], entries: entries.clone() });
    ill_shaped("no entry", &Words { nations: nations.clone(), entries: vec![] });
    ill_shaped("a row too few", &Words { nations: nations.clone(), entries: entries[3..].into() });
    let turned = [&nations[10..], &nations[..10]].concat();
    ill_shaped("nations in another order", &Words { nations: turned, entries });
}

#[test]
fn questions_that_are_none() {
    let good = 14480601;
    let empty = Words { nations: vec![], entries: vec![] };
    for words in [Words::good(), empty] {
        for tag in NO_TAGS {
            refused(&words, tag, good, good, Refusal::BadQuestion);
        }
        for date in NO_DATES {
            for tag in [GBR, ENG, FRA, 0x515151] {
                refused_where(&words, tag, date, good);
                refused_where(&words, tag, good, date);
            }
        }
    }
}

/// A bad date matters to the forms that have it, and to no other.
fn refused_where(words: &Words, tag: u32, date: Date, day: Date) {
    for (question, other) in forms(tag, date, day).into_iter().zip(forms(tag, 14480601, 14480601)) {
        let good = question == other;
        let outcome = words.rows().ask(question, &mut [0; 2]);
        assert_eq!(outcome.is_ok(), good, "{question:?}");
        for length in [0, 1, 2, 9].into_iter().filter(|_| !good) {
            let outcome = asked(words.rows(), question, length, Err(Refusal::BadQuestion));
            assert_eq!(outcome, Ok(()));
        }
    }
}

#[test]
fn many_questions_with_a_bad_one() {
    let (words, date) = (Words::good(), 14480601);
    let good = [GBR, date, FRA, date, 0x515151, date, SPA, 99991231];
    let answers = [GBR, GBR, FRA, FRA, 0, 0, SPA, SPA];
    let bad = Err(Refusal::BadQuestion);
    for length in [0, 1, 7, 8, 13] {
        let expected = if length < 8 { Err(Refusal::NoRoom(None)) } else { Ok(&answers[..]) };
        assert_eq!(asked_each(words.rows(), &good, length, expected), Ok(()));
        for half in [1, 3, 5, 7] {
            assert_eq!(asked_each(words.rows(), &good[..half], length, bad), Ok(()));
        }
        for place in 0..good.len() {
            let none = if place % 2 == 0 { &NO_TAGS[..] } else { &NO_DATES };
            for &word in none {
                let mut questions = good;
                questions[place] = word;
                assert_eq!(asked_each(words.rows(), &questions, length, bad), Ok(()));
            }
        }
        assert_eq!(asked_each(words.rows(), &[], length, Ok(&[])), Ok(()));
    }
}

#[test]
fn room_is_asked_for_only_if_somebody_is_found() {
    let words = Words::good();
    let found = [(GBR, [GBR, GBR]), (ENG, [GBR, GBR]), (FRA, [FRA, FRA]), (CAS, [SPA, SPA])];
    for (tag, answer) in found {
        let question = Question::Resolve { tag, date: 14480601 };
        for length in 0..6 {
            let expected = if length < 2 { Err(Refusal::NoRoom(None)) } else { Ok(&answer[..]) };
            assert_eq!(asked(words.rows(), question, length, expected), Ok(()));
        }
    }
    for question in forms(SPA, 14681231, 14681231) {
        for length in 0..6 {
            assert_eq!(asked(words.rows(), question, length, Ok(&[])), Ok(()));
        }
    }
}

/// Two nations whose switches fill more than two blocks of what the library sorts at a time, to
/// three tags on five days, so that blocks and nations tie; in a thread with little stack.
#[test]
fn more_switches_than_a_block_has() {
    let mut random = Random::new(60);
    let days: Vec<Date> = (14440101..14440106).collect();
    let tags: [Tag; 3] = [*b"ENG", *b"GBR", *b"FRA"];
    let mut nation = |initial: Tag, stored: Tag| {
        let mut entry = || {
            let kind = Kind::Switch(random.pick(&tags));
            Entry { date: random.pick(&days), kind }
        };
        let entries = std::iter::repeat_with(&mut entry).take(30_000).collect();
        Nation { initial, latest: stored, stored, entries }
    };
    let mut nations = vec![nation(*b"AAA", *b"--1"), nation(*b"BBB", *b"--2")];
    // Each block has a first switch of its day that no other has.
    for (at, day) in [(10, 14430101), (24_576, 14430102), (29_000, 14430103)] {
        for (number, nation) in nations.iter_mut().enumerate() {
            let date = day + 10 * number as u32;
            nation.entries[at] = Entry { date, kind: Kind::Switch(*b"ENG") };
        }
    }
    let list = questions(&mut random, &nations, &[*b"QQQ"], &[], usize::MAX);
    let plain = list.into_iter().filter(|question| matches!(question, Question::Resolve { .. }));
    let answers: Vec<_> = plain.map(|question| (question, answer(&nations, question))).collect();
    let small = thread::Builder::new().stack_size(700 << 10);
    let trial = small.spawn(move || trial::resolver(&nations, &answers)).expect("a thread starts");
    assert_eq!(trial.join().expect("the calls end well"), Ok(()));
}
