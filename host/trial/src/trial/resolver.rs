//! The resolver, by four calls for a question and one for many.

use chronicle::raw::Chronicle;
use chronicle::Refusal;

use super::same;
use crate::guard::Lent;
use crate::rows::{entry_words, nation_words, Nation, Question, Resolved};

/// Each question by the call of its form, then all of the plain form at once.
pub fn answered(nations: &[Nation], asked: &[(Question, Option<Resolved>)]) -> Result<(), String> {
    let [nations, entries] = [nation_words(nations), entry_words(nations)];
    let rows = Chronicle { nations: &nations, entries: &entries };
    let [mut questions, mut answers] = [Vec::new(), Vec::new()];
    for (number, &(question, answer)) in asked.iter().enumerate() {
        one(rows, question, answer, number)?;
        if let Question::Resolve { tag, date } = question {
            questions.extend([tag, date]);
            answers.extend(answer.map_or([0; 2], |found| found.words()));
        }
    }
    many(rows, &questions, &answers)
}

/// Room enough for each question, and for some too little: nobody who is not found needs any.
fn one(
    rows: Chronicle<'_>,
    question: Question,
    answer: Option<Resolved>,
    number: usize,
) -> Result<(), String> {
    let words = answer.map(|found| found.words());
    let words = words.as_ref().map_or(&[][..], |words| &words[..]);
    self::asked(rows, question, 2 + number % 4, Ok(words))?;
    if number % 4 < 2 {
        let expected = if words.is_empty() { Ok(words) } else { Err(Refusal::NoRoom(None)) };
        self::asked(rows, question, number % 4, expected)?;
    }
    Ok(())
}

fn many(rows: Chronicle<'_>, questions: &[u32], answers: &[u32]) -> Result<(), String> {
    let exact = answers.len();
    asked_each(rows, questions, exact + 5, Ok(answers))?;
    asked_each(rows, questions, exact, Ok(answers))?;
    if exact > 0 {
        asked_each(rows, questions, exact - 1, Err(Refusal::NoRoom(None)))?;
        asked_each(rows, questions, 0, Err(Refusal::NoRoom(None)))?;
    }
    Ok(())
}

/// Asks a question with so many cells lent. Expected are a refusal, or the words that are written
/// first into the lent cells; no other cell may change.
///
/// ```
/// use chronicle::Refusal;
/// use chronicle::raw::Chronicle;
/// use chronicle_trial::{rows::Question, trial::asked};
///
/// let rows = Chronicle { nations: &[], entries: &[] };
/// let question = Question::Initial { tag: 0x45_4e_47 };
/// assert_eq!(asked(rows, question, 0, Ok(&[])), Ok(()));
/// assert!(asked(rows, question, 2, Err(Refusal::BadQuestion)).is_err());
/// ```
pub fn asked(
    rows: Chronicle<'_>,
    question: Question,
    length: usize,
    expected: Result<&[u32], Refusal>,
) -> Result<(), String> {
    let mut lent = Lent::new(length);
    let found = rows.ask(question, lent.slice());
    accounted(&lent, found, expected.map(<[u32]>::len), expected)
        .map_err(|error| format!("{question:?}, lent {length} cells: {error}"))
}

/// As [`asked`], with all of these questions at once.
///
/// ```
/// use chronicle::raw::Chronicle;
/// use chronicle_trial::trial::asked_each;
///
/// let rows = Chronicle { nations: &[], entries: &[] };
/// assert_eq!(asked_each(rows, &[0x45_4e_47, 14441111], 3, Ok(&[0, 0])), Ok(()));
/// ```
pub fn asked_each(
    rows: Chronicle<'_>,
    questions: &[u32],
    length: usize,
    expected: Result<&[u32], Refusal>,
) -> Result<(), String> {
    let mut lent = Lent::new(length);
    let found = rows.resolve_each(questions, lent.slice());
    accounted(&lent, found, expected.map(|words| words.len() / 2), expected)
        .map_err(|error| format!("resolve_each {questions:?}, lent {length} cells: {error}"))
}

fn accounted(
    lent: &Lent,
    found: Result<usize, Refusal>,
    expected: Result<usize, Refusal>,
    words: Result<&[u32], Refusal>,
) -> Result<(), String> {
    same("the library", &found, &expected)?;
    lent.holds(words.unwrap_or(&[])).map_err(|error| format!("answered well, but {error}"))
}
