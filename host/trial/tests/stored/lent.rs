//! What the stored vectors hold: each form of the resolver with somebody and with nobody, bookings,
//! ledgers, each refusal, and falsified answers, so that the replay has something to notice; and that
//! all but these are the library's.

use chronicle::raw::Chronicle;
use chronicle::Refusal;
use chronicle_trial::rows::Question;
use chronicle_trial::stored::{Kind, Vector};
use chronicle_trial::trial::{asked, asked_each, booked, ledger_told, ledgers_told, rows_told};

use crate::list;

fn form(question: Question) -> usize {
    match question {
        Question::Resolve { .. } => 0,
        Question::Initial { .. } => 1,
        Question::ResolveAt { .. } => 2,
        Question::InitialAt { .. } => 3,
    }
}

#[test]
fn each_form_has_every_outcome() {
    let (mut none, mut found, mut ill_shaped, mut bad) = ([0; 4], [0; 4], [0; 4], [0; 4]);
    for &(question, answer) in list().iter().flat_map(|vector| &vector.single) {
        let times = match answer {
            Ok(None) => &mut none,
            Ok(Some(_)) => &mut found,
            Err(Refusal::NotWellShaped) => &mut ill_shaped,
            Err(Refusal::BadQuestion) => &mut bad,
            Err(refusal) => panic!("{question:?} cannot be refused by {refusal}"),
        };
        times[form(question)] += 1;
    }
    for times in [none, found, ill_shaped, bad].into_iter().flatten() {
        assert!(times >= 20, "{none:?} {found:?} {ill_shaped:?} {bad:?}");
    }
}

/// How many vectors of a kind are so.
fn of(kind: Kind, has: fn(&Vector) -> bool) -> usize {
    list().iter().filter(|vector| vector.kind == kind && has(vector)).count()
}

#[test]
fn many_questions_have_every_outcome() {
    let times = [
        of(Kind::Resolver, |v| v.answers.as_ref().is_ok_and(|words| words.contains(&0))),
        of(Kind::Resolver, |v| v.answers.as_ref().is_ok_and(|words| !words.contains(&0))),
        of(Kind::Resolver, |v| v.answers == Err(Refusal::NotWellShaped)),
        of(Kind::Resolver, |v| v.answers == Err(Refusal::BadQuestion)),
        of(Kind::Resolver, |v| v.answers == Err(Refusal::NoRoom(None))),
        of(Kind::Resolver, |v| v.falsified),
        of(Kind::Resolver, |v| v.room > v.many.len()),
    ];
    assert!(times.into_iter().all(|times| times >= 10), "{times:?}");
}

#[test]
fn bookings_have_every_outcome() {
    let row = |v: &Vector, has: fn(&[u32; 3]) -> bool| {
        v.answers.as_ref().is_ok_and(|words| words.as_chunks().0.iter().any(has))
    };
    let rows = |has: fn(&[u32; 3]) -> bool| {
        list().iter().filter(|v| v.kind == Kind::Bookings && row(v, has)).count()
    };
    let times = [
        rows(|[war, ..]| *war > 0),
        rows(|[_, tag, stored]| tag == stored),
        rows(|[_, tag, stored]| tag != stored),
        of(Kind::Bookings, |v| v.answers.as_ref().is_err_and(|refusal| refusal.is_of_record())),
        of(Kind::Bookings, |v| v.answers == Err(Refusal::NotWellShaped)),
        of(Kind::Bookings, |v| v.answers == Err(Refusal::NoRoom(None))),
        of(Kind::Bookings, |v| v.falsified),
        of(Kind::Bookings, |v| v.answers.as_ref().is_ok_and(|rows| v.room > rows.len())),
    ];
    assert!(times.into_iter().all(|times| times >= 10), "{times:?}");
}

/// Whether a row of a vector about ledgers is so.
fn has_row(vector: &Vector, has: fn(&[u32; 3]) -> bool) -> bool {
    vector.answers.as_ref().is_ok_and(|words| words.as_chunks().0.iter().any(has))
}

#[test]
fn ledgers_have_every_outcome() {
    for kind in [Kind::Ledger, Kind::Ledgers] {
        let times = [
            of(kind, |v| has_row(v, |[_, _, value]| *value == 0)),
            of(kind, |v| has_row(v, |[_, _, value]| *value > 1 << 31)),
            of(kind, |v| v.answers.as_ref().is_err_and(|refusal| refusal.is_of_record())),
            of(kind, |v| v.answers == Err(Refusal::NotWellShaped)),
            of(kind, |v| v.answers == Err(Refusal::NoRoom(None))),
            of(kind, |v| v.falsified),
            of(kind, |v| v.answers.as_ref().is_ok_and(|rows| v.room > rows.len())),
            of(kind, |v| v.nations.len() > 5),
        ];
        assert!(times.into_iter().all(|times| times >= 10), "{times:?}");
    }
    let past = of(Kind::Ledger, |v| v.answers == Err(Refusal::NoSuchNation));
    let stopped = of(Kind::Ledger, |v| v.answers.is_ok() && v.many[3] == v.many[1]);
    let two_with_rows = of(Kind::Ledgers, |v| v.many[1..].iter().filter(|&&n| n > 0).count() > 1);
    assert!([past, stopped, two_with_rows].iter().all(|&times| times >= 10), "{past} {stopped}");
}

/// The program that replays them has no more room.
#[test]
fn vectors_are_short() {
    for vector in list() {
        let answers = vector.answers.as_ref().map_or(0, Vec::len);
        let words = vector.nations.len() + vector.entries.len() + vector.many.len() + answers;
        assert!(10 + words + 7 * vector.single.len() <= 4096);
        assert!(vector.record.len() <= 4096 && vector.room <= 4096);
    }
}

/// What is stored of the resolver and of bookings is what the library answers, and what is falsified
/// is not.
#[test]
fn resolver_and_bookings_are_as_stored() {
    for v in list() {
        let rows = Chronicle { nations: &v.nations, entries: &v.entries };
        let answers = v.answers.as_deref().map_err(|&refusal| refusal);
        let outcome = match v.kind {
            Kind::Resolver => v
                .single
                .iter()
                .try_for_each(|(question, answer)| {
                    let words = answer.map(|found| found.map(|found| found.words()));
                    let words =
                        words.as_ref().map(|words| words.as_ref().map_or(&[][..], |w| &w[..]));
                    asked(rows, *question, 2, words.map_err(|&refusal| refusal))
                })
                .and(asked_each(rows, &v.many, v.room, answers)),
            Kind::Bookings => booked(rows, &v.record, v.room, answers),
            _ => continue,
        };
        assert_eq!(outcome.is_err(), v.falsified, "{v:?}");
    }
}

/// So it is with ledgers.
#[test]
fn ledgers_are_as_stored() {
    for v in list() {
        let rows = Chronicle { nations: &v.nations, entries: &v.entries };
        let answers = v.answers.as_deref().map_err(|&refusal| refusal);
        let outcome = match v.kind {
            Kind::Ledger => {
                let [nation, most, refused, counted] = [0, 1, 2, 3].map(|at| v.many[at] as usize);
                let counted = Refusal::from_number(refused as u8).map_or(Ok(counted), Err);
                ledger_told(rows, &v.record, nation, v.room, answers)
                    .and(rows_told(rows, &v.record, nation, most, counted))
            }
            Kind::Ledgers => {
                let counts: Vec<u64> = v.many[1..].iter().map(|&count| count.into()).collect();
                let lengths = [v.room, v.many[0] as usize];
                ledgers_told(rows, &v.record, lengths, answers.map(|words| (words, &counts[..])))
            }
            _ => continue,
        };
        assert_eq!(outcome.is_err(), v.falsified, "{v:?}");
    }
}
