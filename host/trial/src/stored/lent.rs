//! What is answered of lent chronicles.
//!
//! A vector has
//!
//! - how many numbers follow;
//! - ten of them: its kind (0 resolver, 1 bookings, 2 a nation's ledger, 3 the ledgers of all, 4
//!   players, 5 histories, 6 starting country), 1 if an answer is falsified, nation words, entry
//!   words, questions asked one at a time, words asked at once, cells lent for the answers to those
//!   or for rows, their refusal's number or 0, words of their answers or rows, bytes of the record;
//! - the nation words and the entry words;
//! - seven words for each question asked one at a time: form (0 resolve, 1 initial, 2 and 3 the
//!   same set to a day), day, tag, date, and the answer: the refusal's number or 0, current and
//!   stored tag or zeros; what a form does not take is 0;
//! - what is asked at once: of the resolver, tag and date each; for a ledger the nation's number
//!   and, about the number of its rows, how many are counted at most, the refusal's number or 0,
//!   and that number; for all ledgers the cells lent for their numbers of rows, and these; for
//!   histories the cells lent for names, and the names; for a starting country the history words.
//!   What is refused has neither numbers of rows nor names;
//! - the answers to the questions, two words each; the bookings or ledger rows, three words each;
//!   two words for a player, seven for a history, one for the starting country;
//! - the bytes of the record, which all but the resolver's and the starting country's have. Players
//!   have no nation words and no entry words.

use chronicle::rows::RESOLVED_WORDS;
use chronicle::Refusal;

use super::Front;
use crate::rows::{tag_of_word, Question, Resolved};

/// What an answer tells, or a refusal.
pub type Outcome<T> = Result<T, Refusal>;

/// What a vector is about.
#[derive(Clone, Copy, Debug, PartialEq, Eq)]
#[allow(missing_docs)]
pub enum Kind {
    Resolver,
    Bookings,
    Ledger,
    Ledgers,
    Players,
    Histories,
    Starting,
}

/// By their numbers.
const KINDS: [Kind; 7] = [
    Kind::Resolver,
    Kind::Bookings,
    Kind::Ledger,
    Kind::Ledgers,
    Kind::Players,
    Kind::Histories,
    Kind::Starting,
];

/// What is asked about a lent chronicle, and what is to be answered.
#[derive(Clone, Debug, PartialEq, Eq)]
#[allow(missing_docs)]
pub struct Vector {
    pub kind: Kind,
    pub falsified: bool,
    pub record: Vec<u8>,
    pub nations: Vec<u32>,
    pub entries: Vec<u32>,
    pub single: Vec<(Question, Outcome<Option<Resolved>>)>,
    pub many: Vec<u32>,
    /// Cells lent for the answers to the many, or for rows.
    pub room: usize,
    pub answers: Outcome<Vec<u32>>,
}

/// Words of a question asked by itself, with its answer.
const SINGLE_WORDS: usize = 5 + RESOLVED_WORDS;

/// Reads crates/lent_vectors/data/lent.bin; none if that is not what these bytes are.
///
/// ```
/// use chronicle_trial::stored::{bytes, lent, Kind, Vector};
///
/// let vector = Vector {
///     kind: Kind::Players,
///     falsified: false,
///     record: b"ATL".to_vec(),
///     nations: vec![],
///     entries: vec![],
///     single: vec![],
///     many: vec![],
///     room: 5,
///     answers: Ok(vec![0, 0x45_4e_47]),
/// };
/// let file = bytes(&[vector.clone(), vector.clone()]);
/// assert_eq!(lent(&file[..file.len() - 1]), None);
/// assert_eq!(lent(&file), Some(vec![vector.clone(), vector]));
/// ```
pub fn lent(file: &[u8]) -> Option<Vec<Vector>> {
    Front(file).each(vector)
}

fn vector(front: &mut Front) -> Option<Vector> {
    let [length, kind, falsified, nations, entries, single, many, room, number, answers, record] =
        front.counts()?;
    let parts = [10, nations, entries, SINGLE_WORDS * single, many, answers];
    if parts.into_iter().sum::<usize>() != length || falsified > 1 {
        return None;
    }
    let [nations, entries] = [front.words(nations)?, front.words(entries)?];
    let single = front.words(SINGLE_WORDS * single)?;
    let single = single.as_chunks().0.iter().map(asked).collect::<Option<_>>()?;
    let (many, words) = (front.words(many)?, front.words(answers)?);
    Some(Vector {
        kind: *KINDS.get(kind)?,
        falsified: falsified == 1,
        record: front.bytes(record)?.to_vec(),
        nations,
        entries,
        single,
        many,
        room,
        answers: refusal(number)?.map(|()| words),
    })
}

/// A question and its answer.
fn asked(row: &[u32; SINGLE_WORDS]) -> Option<(Question, Outcome<Option<Resolved>>)> {
    let [form, day, tag, date, number, current, stored] = *row;
    let question = match form {
        0 => Question::Resolve { tag, date },
        1 => Question::Initial { tag },
        2 => Question::ResolveAt { day, tag, date },
        3 => Question::InitialAt { day, tag },
        _ => return None,
    };
    let [current, stored] = [current, stored].map(|word| (word != 0).then(|| tag_of_word(word)));
    let found = current.zip(stored).map(|(current, stored)| Resolved { current, stored });
    Some((question, refusal(number as usize)?.map(|()| found)))
}

/// The refusal that a number tells, 0 being none.
fn refusal(number: usize) -> Option<Outcome<()>> {
    match number {
        0 => Some(Ok(())),
        _ => Refusal::from_number(u8::try_from(number).ok()?).map(Err),
    }
}

/// The file of these vectors, as [`lent`] reads it.
///
/// # Panics
///
/// If a vector has more than 4,294,967,295 of anything.
pub fn bytes(vectors: &[Vector]) -> Vec<u8> {
    vectors.iter().flat_map(stored).collect()
}

fn stored(vector: &Vector) -> Vec<u8> {
    let answers = vector.answers.as_deref().unwrap_or_default();
    let head = [
        vector.kind as u32,
        u32::from(vector.falsified),
        count(vector.nations.len()),
        count(vector.entries.len()),
        count(vector.single.len()),
        count(vector.many.len()),
        count(vector.room),
        number(&vector.answers),
        count(answers.len()),
        count(vector.record.len()),
    ];
    let single = vector.single.iter().flat_map(|(question, answer)| row(*question, *answer));
    let mut words: Vec<u32> = [&head[..], &vector.nations, &vector.entries].concat();
    words.extend(single);
    words.extend([&vector.many, answers].concat());
    words.insert(0, count(words.len()));
    let mut bytes: Vec<u8> = words.into_iter().flat_map(u32::to_le_bytes).collect();
    bytes.extend(&vector.record);
    bytes
}

fn row(question: Question, answer: Outcome<Option<Resolved>>) -> [u32; SINGLE_WORDS] {
    let [form, day, tag, date] = match question {
        Question::Resolve { tag, date } => [0, 0, tag, date],
        Question::Initial { tag } => [1, 0, tag, 0],
        Question::ResolveAt { day, tag, date } => [2, day, tag, date],
        Question::InitialAt { day, tag } => [3, day, tag, 0],
    };
    let [current, stored] = answer.ok().flatten().map_or([0; 2], |found| found.words());
    [form, day, tag, date, number(&answer), current, stored]
}

fn number<T>(outcome: &Outcome<T>) -> u32 {
    outcome.as_ref().err().map_or(0, |refusal| u32::from(refusal.number()))
}

fn count(length: usize) -> u32 {
    u32::try_from(length).expect("a vector is short")
}
