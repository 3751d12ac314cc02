//! Whatever words are lent to resolver, bookings, ledgers, histories and starting countries, they
//! answer as the rules say, or refuse.

mod ledgers;
mod players;
mod words;

use chronicle::raw::check;
use chronicle::raw::Chronicle;
use chronicle::Refusal;
use chronicle_trial::generate::Random;
use chronicle_trial::model::{answer, nations_told};
use chronicle_trial::rows::{tag_word, Nation, Question};
use chronicle_trial::trial::{asked, asked_each};
use chronicle_trial::{
    model::bookings,
    pack::{pack, Campaign, War, WarEvent},
    rows::booking_words,
};
use words::{lent, nearly, word, words, Outcomes, DATES, TAGS};

/// A question that is mostly a good one.
fn question(random: &mut Random) -> Question {
    let mut one_of = |good: &[u32]| match random.below(16) {
        0 => word(random),
        _ => random.pick(good),
    };
    let tag = one_of(&TAGS.map(tag_word));
    let [date, day] = [one_of(&DATES), one_of(&DATES)];
    match random.below(4) {
        0 => Question::Resolve { tag, date },
        1 => Question::Initial { tag },
        2 => Question::ResolveAt { day, tag, date },
        _ => Question::InitialAt { day, tag },
    }
}

/// A tag is what a nation may begin with.
fn is_tag(word: u32) -> bool {
    nations_told(&[word, word, word, 0, 0], &[]).is_some()
}

/// A date is what an entry may have.
fn is_date(word: u32) -> bool {
    let tag = tag_word(TAGS[0]);
    nations_told(&[tag, tag, tag, 0, 1], &[word, 1, 0]).is_some()
}

fn is_good(question: Question) -> bool {
    match question {
        Question::Resolve { tag, date } => is_tag(tag) && is_date(date),
        Question::Initial { tag } => is_tag(tag),
        Question::ResolveAt { day, tag, date } => is_tag(tag) && is_date(date) && is_date(day),
        Question::InitialAt { day, tag } => is_tag(tag) && is_date(day),
    }
}

fn one_expected(told: Option<&[Nation]>, question: Question) -> Result<Vec<u32>, Refusal> {
    let nations = told.ok_or(Refusal::NotWellShaped)?;
    if !is_good(question) {
        return Err(Refusal::BadQuestion);
    }
    Ok(answer(nations, question).map_or(vec![], |found| found.words().to_vec()))
}

fn each_expected(told: Option<&[Nation]>, questions: &[u32]) -> Result<Vec<u32>, Refusal> {
    let nations = told.ok_or(Refusal::NotWellShaped)?;
    let (rows, rest) = questions.as_chunks();
    if !rest.is_empty() {
        return Err(Refusal::BadQuestion);
    }
    let mut words = Vec::new();
    for &[tag, date] in rows {
        let found = one_expected(Some(nations), Question::Resolve { tag, date })?;
        words.extend(if found.is_empty() { vec![0; 2] } else { found });
    }
    Ok(words)
}

/// A record of a few wars; of some a byte is missing.
fn record(random: &mut Random) -> (Campaign, Vec<u8>) {
    let mut event = || WarEvent {
        date: random.pick(&DATES),
        kind: random.below(5) as u8,
        tag: random.pick(&TAGS),
    };
    let mut war = |events: usize| War { events: (0..events).map(|_| event()).collect() };
    let wars = vec![war(2), war(0), war(3)];
    let campaign = Campaign { start: DATES[0], current: DATES[4], wars, ..Campaign::default() };
    let mut record = pack(&campaign);
    record.truncate(record.len() - usize::from(random.below(8) == 0));
    (campaign, record)
}

fn booked(random: &mut Random, rows: Chronicle<'_>, outcomes: &mut Outcomes) {
    let (campaign, record) = record(random);
    let expected = match nations_told(rows.nations, rows.entries) {
        _ if check(&record).is_err() => Err(Refusal::SizesDisagree),
        Some(nations) => Ok(booking_words(&bookings(&campaign, &nations))),
        None => Err(Refusal::NotWellShaped),
    };
    let length = random.below(18);
    let expected = lent(&expected, length, outcomes);
    let expected = expected.as_deref().map_err(|&refusal| refusal);
    let outcome = chronicle_trial::trial::booked(rows, &record, length, expected);
    assert_eq!(outcome, Ok(()), "{rows:?} {campaign:?}");
}

fn tried(random: &mut Random, nations: &[u32], entries: &[u32], outcomes: &mut [Outcomes; 2]) {
    let rows = Chronicle { nations, entries };
    let told = nations_told(nations, entries);
    let told = told.as_deref();
    for _ in 0..4 {
        let question = question(random);
        let length = random.below(5);
        let expected = lent(&one_expected(told, question), length, &mut outcomes[0]);
        let outcome = asked(rows, question, length, expected.as_deref().map_err(|&r| r));
        assert_eq!(outcome, Ok(()), "{rows:?}");
    }
    let mut questions: Vec<u32> = Vec::new();
    for _ in 0..random.below(5) {
        if let Question::Resolve { tag, date } = question(random) {
            questions.extend([tag, date]);
        }
    }
    if random.below(8) == 0 {
        questions.push(word(random));
    }
    let length = random.below(10);
    let expected = lent(&each_expected(told, &questions), length, &mut outcomes[1]);
    let outcome = asked_each(rows, &questions, length, expected.as_deref().map_err(|&r| r));
    assert_eq!(outcome, Ok(()), "{rows:?}");
}

#[test]
fn any_words() {
    let mut random = Random::new(11);
    let mut outcomes = [Outcomes::new(), Outcomes::new()];
    for _ in 0..20_000 {
        let [nations, entries] = [words(&mut random, 40), words(&mut random, 40)];
        tried(&mut random, &nations, &entries, &mut outcomes);
    }
    assert!(outcomes.iter().all(|outcomes| outcomes[&11] > 10_000), "{outcomes:?}");
}

#[test]
fn any_words_for_bookings() {
    let mut random = Random::new(13);
    let mut outcomes = Outcomes::new();
    for _ in 0..20_000 {
        let [nations, entries] = [words(&mut random, 40), words(&mut random, 40)];
        booked(&mut random, Chronicle { nations: &nations, entries: &entries }, &mut outcomes);
    }
    assert!(outcomes[&11] > 10_000 && outcomes[&3] > 1_000, "{outcomes:?}");
}

#[test]
fn nearly_a_chronicle() {
    let mut random = Random::new(12);
    let mut outcomes = [Outcomes::new(), Outcomes::new()];
    for _ in 0..50_000 {
        let [nations, entries] = nearly(&mut random);
        tried(&mut random, &nations, &entries, &mut outcomes);
    }
    for outcomes in outcomes {
        let numbers: Vec<u8> = outcomes.keys().copied().collect();
        assert_eq!(numbers, [0, 1, 10, 11, 12], "{outcomes:?}");
        assert!(outcomes.values().all(|&times| times > 1_000), "{outcomes:?}");
    }
}

#[test]
fn nearly_a_chronicle_for_bookings() {
    let mut random = Random::new(14);
    let mut outcomes = Outcomes::new();
    for _ in 0..50_000 {
        let [nations, entries] = nearly(&mut random);
        booked(&mut random, Chronicle { nations: &nations, entries: &entries }, &mut outcomes);
    }
    let numbers: Vec<u8> = outcomes.keys().copied().collect();
    assert_eq!(numbers, [0, 1, 3, 10, 11], "{outcomes:?}");
    assert!(outcomes.values().all(|&times| times > 1_000), "{outcomes:?}");
}
