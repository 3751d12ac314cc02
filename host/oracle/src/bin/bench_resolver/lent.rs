//! A list of nations lent to both, and questions about it.

use std::hint::black_box;
use std::time::Duration;

use chronicle::raw::Chronicle;
use chronicle::rows::{QUESTION_WORDS, RESOLVED_WORDS};
use chronicle_oracle::rust::{bytes, nation_events};
use chronicle_oracle::save;
use chronicle_oracle::timed::{race, spent};
use chronicle_trial::generate::Random;
use chronicle_trial::lists::{questions, some_of};
use chronicle_trial::rows::{
    entry_words, nation_words, tag_of_word, tag_word, Kind, Nation, Question,
};
use eu4save::query::NationEvents;
use eu4save::{TagData, TagResolver};

/// Questions of a form that are drawn to be asked one by one, and the tags and days they are made
/// of.
const SINGLE: usize = 500;
const OF_EACH: usize = 40;

/// The Rust's resolver copies a nation's entries for each of its switches: with more copies than
/// this it is not timed.
const MOST_COPIES: usize = 20_000_000;

/// A form's name, and whether a question has it.
pub type Form = (&'static str, fn(&Question) -> bool);

pub const FORMS: [Form; 4] = [
    ("resolve", |question| matches!(question, Question::Resolve { .. })),
    ("initial", |question| matches!(question, Question::Initial { .. })),
    ("resolve, set to a day", |question| matches!(question, Question::ResolveAt { .. })),
    ("initial, set to a day", |question| matches!(question, Question::InitialAt { .. })),
];

/// A list of nations as each of the two takes it.
pub struct Lent {
    nations: Vec<Nation>,
    theirs: Vec<NationEvents>,
    nation_words: Vec<u32>,
    entry_words: Vec<u32>,
}

impl Lent {
    /// The list as the Rust takes it, and as words.
    pub fn of(nations: Vec<Nation>) -> Lent {
        Lent {
            theirs: nations.iter().map(nation_events).collect(),
            nation_words: nation_words(&nations),
            entry_words: entry_words(&nations),
            nations,
        }
    }

    /// The words, as they are lent.
    pub fn rows(&self) -> Chronicle<'_> {
        Chronicle { nations: &self.nation_words, entries: &self.entry_words }
    }

    fn few_copies(&self) -> bool {
        let copies = self.nations.iter().map(|nation| nation.entries.len().pow(2));
        copies.sum::<usize>() <= MOST_COPIES
    }

    /// Single questions of a form, by turns.
    pub fn race_one(&self, name: &str, (_, has): Form, rounds: usize) {
        let asked = self.single(has);
        self.agreed(&asked);
        let theirs = |round: usize| {
            let before = spent();
            let resolver = TagResolver::create(black_box(&self.theirs));
            black_box(answered(&resolver, black_box(asked[round % asked.len()])));
            spent() - before
        };
        let ours = |round: usize| self.ask(asked[round % asked.len()]).1;
        let theirs = self.few_copies().then_some(theirs);
        println!("{}", race(name, self.entry_words.len() / 3, rounds, theirs, ours));
    }

    /// Both give these answers.
    fn agreed(&self, asked: &[Question]) {
        if !self.few_copies() {
            return;
        }
        let resolver = TagResolver::create(&self.theirs);
        for &question in asked {
            let expected = answered(&resolver, question).map_or([0; 2], words);
            assert_eq!(self.ask(question).0, expected, "{question:?}");
        }
    }

    /// Questions of a form, about tags and days of the list.
    pub fn single(&self, has: fn(&Question) -> bool) -> Vec<Question> {
        let mut random = Random::new(1);
        let mut list = questions(&mut random, &self.nations, &[], &[], OF_EACH);
        list.retain(has);
        some_of(&mut random, list, SINGLE)
    }

    /// Asks us one question; the two words of the answer, and the time.
    pub fn ask(&self, question: Question) -> ([u32; RESOLVED_WORDS], Duration) {
        let mut out = [0; 2];
        let before = spent();
        let answer = self.rows().ask(black_box(question), black_box(&mut out));
        let time = spent() - before;
        assert!(answer.is_ok(), "{question:?}: {answer:?}");
        (out, time)
    }

    /// Many questions at once, by turns.
    pub fn race_many(&self, name: &str, many: usize, rounds: usize) {
        let asked = self.many(many);
        let question =
            |&[tag, date]: &[u32; QUESTION_WORDS]| (save::tag(tag_of_word(tag)), save::date(date));
        let questions: Vec<_> = asked.iter().map(question).collect();
        let mut found = vec![None; many];
        let mut out = vec![0; RESOLVED_WORDS * many];
        let theirs = |_: usize| {
            let before = spent();
            let resolver = TagResolver::create(black_box(&self.theirs));
            for (answer, &(tag, date)) in found.iter_mut().zip(black_box(&questions)) {
                *answer = resolver.resolve(tag, date);
            }
            black_box(&mut found);
            spent() - before
        };
        let ours = |_: usize| {
            let before = spent();
            let rows = self.rows().resolve_each(black_box(asked.as_flattened()), &mut out);
            black_box(&mut out);
            let time = spent() - before;
            assert_eq!(rows, Ok(many));
            time
        };
        let theirs = self.few_copies().then_some(theirs);
        println!("{}", race(name, many, rounds, theirs, ours));
        let found = found.into_iter().flat_map(|data| data.map_or([0; 2], words));
        assert!(!self.few_copies() || found.eq(out), "both answer alike");
    }

    /// Questions about tags and days of the list.
    pub fn many(&self, many: usize) -> Vec<[u32; RESOLVED_WORDS]> {
        let mut tags: Vec<u32> = self.nations.iter().map(|n| tag_word(n.initial)).collect();
        let mut days = vec![10101];
        for entry in self.nations.iter().flat_map(|nation| &nation.entries) {
            days.push(entry.date);
            if let Kind::Switch(target) = entry.kind {
                tags.push(tag_word(target));
            }
        }
        let mut random = Random::new(many as u64);
        (0..many).map(|_| [random.pick(&tags), random.pick(&days)]).collect()
    }
}

fn answered(resolver: &TagResolver, question: Question) -> Option<TagData> {
    let tag_of = |word: u32| save::tag(tag_of_word(word));
    match question {
        Question::Resolve { tag, date } => resolver.resolve(tag_of(tag), save::date(date)),
        Question::Initial { tag } => resolver.initial(tag_of(tag)),
        Question::ResolveAt { day, tag, date } => {
            resolver.at(save::date(day)).resolve(tag_of(tag), save::date(date))
        }
        Question::InitialAt { day, tag } => resolver.at(save::date(day)).initial(tag_of(tag)),
    }
}

fn words(data: TagData) -> [u32; RESOLVED_WORDS] {
    [data.current, data.stored].map(|tag| tag_word(bytes(tag)))
}
