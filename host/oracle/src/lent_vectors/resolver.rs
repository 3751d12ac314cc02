//! Questions to the resolver.

use chronicle::Refusal;
use chronicle_trial::adversary::{days_of, tags_of};
use chronicle_trial::generate::Random;
use chronicle_trial::lists::questions;
use chronicle_trial::pack::{Campaign, Date};
use chronicle_trial::rows::{entry_words, nation_words, Nation, Question, Resolved};

use super::{spoil, without_room, Kind, Other, Vector, NOBODY};
use crate::resolving::answer;
use crate::rust::{nation_events, Resolver};

/// Tags and days asked about, one question at a time and many at once.
const SINGLE: usize = 2;
const MANY: usize = 3;

/// No tag: nothing, an underscore, a fourth byte.
const NO_TAGS: [u32; 3] = [0, 0x45_5f_47, 0x01_45_4e_47];

/// No date: nothing, a leap day, a month and a year too many.
const NO_DATES: [Date; 4] = [0, 14440229, 14441301, 100000101];

/// What else is made of a vector.
pub const OTHERS: [Other; 4] = [falsified, ill_shaped, badly_asked, without_room];

/// What the Rust answers about these nations.
pub fn asked(random: &mut Random, campaign: &Campaign, nations: &[Nation]) -> Vector {
    let resolver = Resolver::of(&nations.iter().map(nation_events).collect::<Vec<_>>());
    let (tags, days) = (tags_of(campaign), days_of(random, campaign));
    let single = questions(random, nations, &tags, &days, SINGLE);
    let single = single.into_iter().map(|question| (question, Ok(answer(&resolver, question))));
    let single = single.collect();
    let [mut many, mut answers] = [Vec::new(), Vec::new()];
    for question in questions(random, nations, &tags, &days, MANY) {
        if let Question::Resolve { tag, date } = question {
            many.extend([tag, date]);
            let found = answer(&resolver, question);
            answers.extend(found.map_or([0; 2], |found| found.words()));
        }
    }
    Vector {
        kind: Kind::Resolver,
        record: vec![],
        falsified: false,
        nations: nation_words(nations),
        entries: entry_words(nations),
        single,
        room: many.len() + random.below(3),
        many,
        answers: Ok(answers),
    }
}

/// One answer is turned into another one, of those to one question or to many.
fn falsified(random: &mut Random, vector: &Vector) -> Vector {
    let mut vector = Vector { falsified: true, ..vector.clone() };
    let place = random.below(vector.single.len());
    let single = &mut vector.single[place].1;
    match random.below(4) {
        0 => *single = Err(Refusal::BadQuestion),
        1 => match single {
            Ok(Some(found)) => found.stored = NOBODY,
            none => *none = Ok(Some(Resolved { current: NOBODY, stored: NOBODY })),
        },
        2 => vector.answers = Err(Refusal::NoRoom(None)),
        _ => {
            let words = vector.answers.as_mut().expect("the Rust refuses nothing");
            *words.last_mut().expect("many were asked") ^= 1;
        }
    }
    vector
}

/// All are refused by one number.
fn refused(vector: &Vector, refusal: Refusal) -> Vector {
    let single = vector.single.iter().map(|&(question, _)| (question, Err(refusal))).collect();
    Vector { single, answers: Err(refusal), ..vector.clone() }
}

/// The words are no chronicle's.
fn ill_shaped(random: &mut Random, vector: &Vector) -> Vector {
    let mut vector = refused(vector, Refusal::NotWellShaped);
    spoil(random, &mut vector.nations, &mut vector.entries);
    vector
}

/// A word of a question is none: of each question asked by itself, and of the last of many.
fn badly_asked(random: &mut Random, vector: &Vector) -> Vector {
    let mut vector = refused(vector, Refusal::BadQuestion);
    for (question, _) in &mut vector.single {
        match question {
            Question::Initial { tag } => *tag = random.pick(&NO_TAGS),
            Question::Resolve { tag, date } => badly(random, [(tag, &NO_TAGS), (date, &NO_DATES)]),
            Question::ResolveAt { day, date, .. } => {
                badly(random, [(day, &NO_DATES), (date, &NO_DATES)])
            }
            Question::InitialAt { day, tag } => badly(random, [(tag, &NO_TAGS), (day, &NO_DATES)]),
        }
    }
    match random.below(3) {
        0 => _ = vector.many.pop(),
        1 => *vector.many.last_mut().expect("many were asked") = random.pick(&NO_DATES),
        _ => vector.many[0] = random.pick(&NO_TAGS),
    }
    vector
}

/// One of two words becomes one of those that are none.
fn badly(random: &mut Random, [first, second]: [(&mut u32, &[u32]); 2]) {
    let (word, none) = if random.below(2) == 0 { first } else { second };
    *word = random.pick(none);
}
