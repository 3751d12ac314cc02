//! The resolver, asked about one list of nations: the Rust, the model and the library.

use chronicle_trial::rows::{tag_of_word, Nation, Question, Resolved};
use chronicle_trial::{model, trial};

use crate::compare::equal;
use crate::rust::Resolver;
use crate::seen::Seen;

/// How often the library answered: each form's answers that are none, and those that are not.
const LIBRARY: [[&str; 2]; 5] = [
    ["library: resolve, none", "library: resolve, found"],
    ["library: initial, none", "library: initial, found"],
    ["library: resolve_at, none", "library: resolve_at, found"],
    ["library: initial_at, none", "library: initial_at, found"],
    ["library: resolve_each, none", "library: resolve_each, found"],
];

/// The place of `resolve_each` there.
const EACH: usize = 4;

/// What a comparison counts of the library's answers, so that none is missed silently.
///
/// ```
/// use chronicle_oracle::resolving::looked_for;
///
/// assert!(looked_for().any(|what| what == "library: initial_at, none"));
/// ```
pub fn looked_for() -> impl Iterator<Item = &'static str> {
    LIBRARY.into_iter().flatten()
}

/// Holds the Rust's answer to each question against the model's, and then the library's. Without
/// the Rust's resolver, which some lists are too large for, the model stands alone for it.
///
/// ```
/// use chronicle_trial::rows::{tag_word, Question};
/// use chronicle_oracle::{resolving::compare, rust::Resolver, seen::Seen};
///
/// let mut seen = Seen::default();
/// let question = Question::Initial { tag: tag_word(*b"ENG") };
/// assert_eq!(compare(&[], Some(&Resolver::of(&[])), &[question], &mut seen), Ok(()));
/// assert_eq!(seen.times("library: initial, none"), 1);
/// ```
pub fn compare(
    nations: &[Nation],
    theirs: Option<&Resolver>,
    questions: &[Question],
    seen: &mut Seen,
) -> Result<(), String> {
    let with_answer = |&question: &Question| (question, model::answer(nations, question));
    let asked: Vec<_> = questions.iter().map(with_answer).collect();
    if let Some(theirs) = theirs {
        for (question, ours) in &asked {
            equal(|| format!("{question:?}"), &answer(theirs, *question), ours)?;
        }
        let found = asked.iter().filter(|(_, answer)| answer.is_some()).count();
        seen.add("answer: resolver, not none", found);
    }
    trial::resolver(nations, &asked)?;
    count(&asked, seen);
    Ok(())
}

/// What the Rust answers.
pub(crate) fn answer(theirs: &Resolver, question: Question) -> Option<Resolved> {
    match question {
        Question::Resolve { tag, date } => theirs.resolve(tag_of_word(tag), date),
        Question::Initial { tag } => theirs.initial(tag_of_word(tag)),
        Question::ResolveAt { day, tag, date } => theirs.resolve_at(day, tag_of_word(tag), date),
        Question::InitialAt { day, tag } => theirs.initial_at(day, tag_of_word(tag)),
    }
}

fn count(asked: &[(Question, Option<Resolved>)], seen: &mut Seen) {
    let mut times = [[0; 2]; 5];
    for (question, answer) in asked {
        let found = usize::from(answer.is_some());
        let form = match question {
            Question::Resolve { .. } => 0,
            Question::Initial { .. } => 1,
            Question::ResolveAt { .. } => 2,
            Question::InitialAt { .. } => 3,
        };
        times[form][found] += 1;
    }
    // Every question of the first form was asked once more, with all others of it.
    times[EACH] = times[0];
    for (what, times) in LIBRARY.into_iter().flatten().zip(times.into_iter().flatten()) {
        seen.add(what, times);
    }
}
