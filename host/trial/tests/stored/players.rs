//! What the stored vectors hold of players, histories and starting countries: each outcome, and
//! falsified answers; and that all but these are the library's.

use chronicle::raw::Chronicle;
use chronicle::Refusal;
use chronicle_trial::rows::tag_of_word;
use chronicle_trial::stored::{Kind, Vector};
use chronicle_trial::trial::{begun, played, recalled};

use crate::list;

/// How many vectors of a kind are so.
fn of(kind: Kind, has: impl Fn(&Vector) -> bool) -> usize {
    list().iter().filter(|vector| vector.kind == kind && has(vector)).count()
}

fn refused(kind: Kind, refusal: Refusal) -> usize {
    of(kind, |v| v.answers == Err(refusal))
}

fn by_the_record(kind: Kind) -> usize {
    of(kind, |v| v.answers.as_ref().is_err_and(|refusal| refusal.is_of_record()))
}

fn answered(kind: Kind, has: impl Fn(&Vector, &[u32]) -> bool) -> usize {
    of(kind, |v| v.answers.as_ref().is_ok_and(|words| has(v, words)))
}

#[test]
fn players_have_every_outcome() {
    let times = [
        answered(Kind::Players, |_, words| words.len() == 2),
        answered(Kind::Players, |_, words| words.len() > 2),
        answered(Kind::Players, |_, words| words.first() > Some(&0)),
        answered(Kind::Players, |v, words| v.room > words.len()),
        by_the_record(Kind::Players),
        refused(Kind::Players, Refusal::NoRoom(None)),
        of(Kind::Players, |v| v.falsified),
    ];
    assert!(times.into_iter().all(|times| times >= 10), "{times:?}");
}

#[test]
fn histories_have_every_outcome() {
    let rows = |has: fn(&[u32; 7]) -> bool| {
        answered(Kind::Histories, |_, words| words.as_chunks().0.iter().any(has))
    };
    let times = [
        rows(|row| row[3] == 0),
        rows(|row| row[3] > 0),
        rows(|row| row[4] == 1),
        rows(|row| row[6] == 0),
        rows(|row| row[6] > 0),
        rows(|row| row[6] > 1),
        rows(|row| row[1] != row[2]),
        answered(Kind::Histories, |_, words| words.len() > 7),
        answered(Kind::Histories, |v, words| v.room > words.len()),
        answered(Kind::Histories, |v, _| v.many[0] as usize >= v.many.len()),
        by_the_record(Kind::Histories),
        refused(Kind::Histories, Refusal::NotWellShaped),
        refused(Kind::Histories, Refusal::NoRoom(None)),
        of(Kind::Histories, |v| v.falsified),
    ];
    assert!(times.into_iter().all(|times| times >= 10), "{times:?}");
}

#[test]
fn starting_countries_have_every_outcome() {
    let times = [
        answered(Kind::Starting, |v, words| words.is_empty() && v.many.len() > 7),
        answered(Kind::Starting, |v, words| words.len() == 1 && v.many.len() > 7),
        answered(Kind::Starting, |v, words| words.len() == 1 && v.many.len() == 7),
        refused(Kind::Starting, Refusal::NotWellShaped),
        of(Kind::Starting, |v| v.falsified),
    ];
    assert!(times.into_iter().all(|times| times >= 10), "{times:?}");
    assert_eq!(of(Kind::Starting, |v| v.room > 0 || !v.record.is_empty()), 0);
}

/// What is stored is what the library answers, and what is falsified is not.
#[test]
fn players_are_as_stored() {
    for v in list() {
        let rows = Chronicle { nations: &v.nations, entries: &v.entries };
        let answers = v.answers.as_deref().map_err(|&refusal| refusal);
        let outcome = match v.kind {
            Kind::Players => played(&v.record, v.room, answers),
            Kind::Histories => {
                let lengths = [v.room, v.many[0] as usize];
                recalled(rows, &v.record, lengths, answers.map(|words| [words, &v.many[1..]]))
            }
            Kind::Starting => {
                let start = answers.map(|words| words.first().copied().map(tag_of_word));
                begun(rows, &v.many, 1, start)
            }
            _ => continue,
        };
        assert_eq!(outcome.is_err(), v.falsified, "{v:?}");
    }
}
