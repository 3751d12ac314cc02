//! The resolver (Rules 5). The nations may be any list: also unsorted, with unsorted entries.

use crate::pack::{Date, Tag};
use crate::rows::{tag_of_word, Kind, Nation, Question, Resolved};

/// Whom a tag meant on a date, under the tag it has now.
///
/// ```
/// use chronicle_trial::{model::{chronicle, resolve}, rows::Resolved, sample};
///
/// let nations = chronicle(&sample::worked()).nations;
/// assert_eq!(resolve(&nations, *b"GBR", 14480531), None);
/// let gbr = Resolved { current: *b"GBR", stored: *b"GBR" };
/// assert_eq!(resolve(&nations, *b"GBR", 14480601), Some(gbr));
/// ```
pub fn resolve(nations: &[Nation], tag: Tag, date: Date) -> Option<Resolved> {
    meant(nations, tag, date).map(now)
}

/// Who was first called this, under the tag it has now.
///
/// ```
/// use chronicle_trial::{model::{chronicle, initial}, rows::Resolved, sample};
///
/// let nations = chronicle(&sample::worked()).nations;
/// let gbr = Resolved { current: *b"GBR", stored: *b"GBR" };
/// assert_eq!(initial(&nations, *b"ENG"), Some(gbr));
/// ```
pub fn initial(nations: &[Nation], tag: Tag) -> Option<Resolved> {
    began_as(nations, tag).map(now)
}

/// As [`resolve`], under the tag it had on the day.
///
/// ```
/// use chronicle_trial::{model::{chronicle, resolve_at}, rows::Resolved, sample};
///
/// let nations = chronicle(&sample::worked()).nations;
/// let eng = Resolved { current: *b"ENG", stored: *b"GBR" };
/// assert_eq!(resolve_at(&nations, 14480531, *b"ENG", 14480531), Some(eng));
/// ```
pub fn resolve_at(nations: &[Nation], day: Date, tag: Tag, date: Date) -> Option<Resolved> {
    let nation = meant(nations, tag, date)?;
    let current = switched_to(nation, day).unwrap_or(nation.initial);
    Some(Resolved { current, stored: nation.stored })
}

/// As [`initial`], under the tag it had on the day; none if it had not switched by then.
///
/// ```
/// use chronicle_trial::{model::{chronicle, initial_at}, sample};
///
/// let nations = chronicle(&sample::worked()).nations;
/// assert_eq!(initial_at(&nations, 14480531, *b"ENG"), None);
/// ```
pub fn initial_at(nations: &[Nation], day: Date, tag: Tag) -> Option<Resolved> {
    let nation = began_as(nations, tag)?;
    let current = switched_to(nation, day)?;
    Some(Resolved { current, stored: nation.stored })
}

/// The answer to any of the four questions, whose tag and dates are good.
///
/// ```
/// use chronicle_trial::{model::{answer, chronicle}, rows::{tag_word, Question}, sample};
///
/// let nations = chronicle(&sample::worked()).nations;
/// assert_eq!(answer(&nations, Question::Initial { tag: tag_word(*b"GBR") }), None);
/// ```
pub fn answer(nations: &[Nation], question: Question) -> Option<Resolved> {
    match question {
        Question::Resolve { tag, date } => resolve(nations, tag_of_word(tag), date),
        Question::Initial { tag } => initial(nations, tag_of_word(tag)),
        Question::ResolveAt { day, tag, date } => resolve_at(nations, day, tag_of_word(tag), date),
        Question::InitialAt { day, tag } => initial_at(nations, day, tag_of_word(tag)),
    }
}

fn now(nation: &Nation) -> Resolved {
    Resolved { current: nation.latest, stored: nation.stored }
}

/// The nation of the latest switch to the tag not after the date, ties to the later in the list;
/// else the last nation that began with the tag.
fn meant(nations: &[Nation], tag: Tag, date: Date) -> Option<&Nation> {
    let mut latest: Option<(Date, &Nation)> = None;
    for nation in nations {
        for entry in nation.entries.iter().filter(|entry| entry.kind == Kind::Switch(tag)) {
            if entry.date <= date && latest.is_none_or(|(date, _)| date <= entry.date) {
                latest = Some((entry.date, nation));
            }
        }
    }
    latest.map(|(_, nation)| nation).or_else(|| began_as(nations, tag))
}

fn began_as(nations: &[Nation], tag: Tag) -> Option<&Nation> {
    nations.iter().rev().find(|nation| nation.initial == tag)
}

/// Walks up to the first entry dated later than the day, also where later ones are dated earlier.
fn switched_to(nation: &Nation, day: Date) -> Option<Tag> {
    let mut target = None;
    for entry in &nation.entries {
        if entry.date > day {
            break;
        }
        if let Kind::Switch(tag) = entry.kind {
            target = Some(tag);
        }
    }
    target
}
