//! Lists of nations that no record gave, and what to ask about a list: resolver, bookings, ledger
//! and histories take any.

use std::collections::BTreeSet;

use crate::calendar::{day_after, day_before};
use crate::generate::{repeat, shuffle, Random};
use crate::pack::{Date, Tag};
use crate::rows::{tag_word, Entry, History, Kind, Nation, Question};

/// No campaign drawn here has these.
pub(crate) const NOBODY: [Tag; 2] = [*b"0zZ", *b"Zz0"];

/// A list made of these tags and days.
///
/// ```
/// use chronicle_trial::{generate::Random, lists::any_nations};
///
/// let nations = any_nations(&mut Random::new(1), &[*b"ENG"], &[14441111]);
/// assert!(nations.iter().all(|nation| nation.stored == *b"ENG"));
/// ```
pub fn any_nations(random: &mut Random, tags: &[Tag], days: &[Date]) -> Vec<Nation> {
    let entry = |random: &mut Random| Entry {
        date: random.pick(days),
        kind: match random.below(5) {
            0 => Kind::Appeared,
            1 => Kind::Annexed,
            _ => Kind::Switch(random.pick(tags)),
        },
    };
    let nation = |random: &mut Random| {
        let entries = random.below(6);
        Nation {
            initial: random.pick(tags),
            latest: random.pick(tags),
            stored: random.pick(tags),
            entries: repeat(entries, || entry(random)),
        }
    };
    let nations = random.below(5);
    repeat(nations, || nation(random))
}

/// A list of nations told anew, as no campaign has it: nations stand twice and stored under two
/// tags, begin alike, have lost their entries or mixed them up, and switch to tags that are nobody's.
///
/// ```
/// use chronicle_trial::{generate::Random, lists::altered, model, sample};
///
/// let nations = model::chronicle(&sample::worked()).nations;
/// assert!(altered(&mut Random::new(1), &nations, &[*b"ENG"]).len() >= nations.len());
/// ```
pub fn altered(random: &mut Random, nations: &[Nation], tags: &[Tag]) -> Vec<Nation> {
    let mut list = nations.to_vec();
    for nation in nations {
        if random.below(2) == 0 {
            list.push(Nation { stored: random.pick(tags), ..nation.clone() });
        }
    }
    let shared = nations.first().map_or(NOBODY[0], |nation| nation.initial);
    for nation in &mut list {
        match random.below(6) {
            0 => nation.entries.clear(),
            1 => nation.initial = shared,
            2 => to_nobody(random, &mut nation.entries),
            3 | 4 => shuffle(random, &mut nation.entries),
            _ => {}
        }
    }
    shuffle(random, &mut list);
    list
}

fn to_nobody(random: &mut Random, entries: &mut [Entry]) {
    if !entries.is_empty() {
        let place = random.below(entries.len());
        entries[place].kind = Kind::Switch(random.pick(&NOBODY));
    }
}

/// Histories told anew, as no campaign has them: some stand twice or are missing, point at another of
/// so many nations or at none, and begin otherwise.
///
/// ```
/// use chronicle_trial::{generate::Random, lists::altered_histories, model, sample};
///
/// let histories = model::histories(&sample::worked(), &[]);
/// let told = altered_histories(&mut Random::new(1), &histories, 0, &[*b"ENG"]);
/// assert!(told.iter().all(|history| history.nation.is_none() && history.stored == *b"ENG"));
/// ```
pub fn altered_histories(
    random: &mut Random,
    histories: &[History],
    nations: usize,
    tags: &[Tag],
) -> Vec<History> {
    let mut list = histories.to_vec();
    let more = random.below(4);
    list.extend(repeat(more, || any_history(random, nations, tags)));
    for history in &mut list {
        match random.below(6) {
            0 => history.nation = None,
            1 => history.initial = random.pick(tags),
            2 => *history = any_history(random, nations, tags),
            _ => {}
        }
    }
    shuffle(random, &mut list);
    let fewer = random.below(4);
    if random.below(2) == 0 {
        list.truncate(fewer);
    }
    list
}

fn any_history(random: &mut Random, nations: usize, tags: &[Tag]) -> History {
    let [initial, latest, stored] = [0; 3].map(|_| random.pick(tags));
    let nation = random.below(nations + 1).checked_sub(1);
    History { initial, latest, stored, nation, human: random.below(2) == 0, names: vec![] }
}

/// What to ask a resolver about a list, in all four forms: for these tags and every tag of the
/// list, on these days and on, before and after the day of every entry. Of tags and of days there
/// are at most so many, picked at random.
///
/// ```
/// use chronicle_trial::rows::{tag_word, Question};
/// use chronicle_trial::{generate::Random, lists::questions, model, sample};
///
/// let nations = model::chronicle(&sample::worked()).nations;
/// let asked = questions(&mut Random::new(1), &nations, &[*b"QQQ"], &[10101], usize::MAX);
/// let [gbr, qqq] = [*b"GBR", *b"QQQ"].map(tag_word);
/// assert!(asked.contains(&Question::Resolve { tag: gbr, date: 14480531 }));
/// assert!(asked.contains(&Question::InitialAt { day: 10101, tag: qqq }));
/// assert_eq!(asked.len(), 4 * (1 + 10 * (2 + 10)));
/// ```
pub fn questions(
    random: &mut Random,
    nations: &[Nation],
    tags: &[Tag],
    days: &[Date],
    most: usize,
) -> Vec<Question> {
    let tags = some_of(random, own_tags(nations, tags), most);
    let days = some_of(random, own_days(nations, days), most);
    let mut asked = Vec::new();
    for tag in tags.into_iter().map(tag_word) {
        asked.push(Question::Initial { tag });
        for &date in &days {
            asked.push(Question::InitialAt { day: date, tag });
            asked.push(Question::Resolve { tag, date });
            asked.extend(days.iter().map(|&day| Question::ResolveAt { day, tag, date }));
        }
    }
    asked
}

fn own_tags(nations: &[Nation], tags: &[Tag]) -> Vec<Tag> {
    let mut own: BTreeSet<Tag> = tags.iter().copied().collect();
    for nation in nations {
        own.extend([nation.initial, nation.latest, nation.stored]);
        for entry in &nation.entries {
            if let Kind::Switch(target) = entry.kind {
                own.insert(target);
            }
        }
    }
    own.into_iter().collect()
}

fn own_days(nations: &[Nation], days: &[Date]) -> Vec<Date> {
    let mut own: BTreeSet<Date> = days.iter().copied().collect();
    for entry in nations.iter().flat_map(|nation| &nation.entries) {
        own.insert(entry.date);
        own.extend(day_before(entry.date).into_iter().chain(day_after(entry.date)));
    }
    own.into_iter().collect()
}

/// A sample of the list, or all of it.
///
/// ```
/// use chronicle_trial::{generate::Random, lists::some_of};
///
/// assert_eq!(some_of(&mut Random::new(1), vec![3, 5], 2), [3, 5]);
/// assert_eq!(some_of(&mut Random::new(1), vec![3, 5], 1).len(), 1);
/// ```
pub fn some_of<T: Copy>(random: &mut Random, list: Vec<T>, most: usize) -> Vec<T> {
    if list.len() <= most {
        return list;
    }
    repeat(most, || random.pick(&list))
}
