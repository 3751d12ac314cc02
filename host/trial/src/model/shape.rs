//! Which words are a chronicle's (Rules 4.20), and which histories' (Rules 8.13).

use crate::pack::{Date, Tag};
use crate::reference::{check_date, check_tag};
use crate::rows::{tag_of_word, tag_word, Entry, History, Kind, Nation};

/// The nations that nation words and entry words tell of; none if these are not well shaped.
///
/// ```
/// use chronicle_trial::{model::{chronicle, nations_told}, sample};
/// use chronicle_trial::rows::{entry_words, nation_words};
///
/// let nations = chronicle(&sample::worked()).nations;
/// let [rows, entries] = [nation_words(&nations), entry_words(&nations)];
/// assert_eq!(nations_told(&rows, &entries), Some(nations));
/// assert_eq!(nations_told(&rows, &entries[3..]), None);
/// ```
pub fn nations_told(nations: &[u32], entries: &[u32]) -> Option<Vec<Nation>> {
    let entries: Option<Vec<Entry>> = whole(entries)?.iter().map(entry).collect();
    let entries = entries?;
    let mut used = 0;
    let mut told = Vec::new();
    for &[initial, latest, stored, first, count] in whole(nations)? {
        if first as usize != used {
            return None;
        }
        let own = entries[used..].get(..count as usize)?;
        used += own.len();
        let [initial, latest, stored] = [tag(initial)?, tag(latest)?, tag(stored)?];
        told.push(Nation { initial, latest, stored, entries: own.to_vec() });
    }
    (used == entries.len()).then_some(told)
}

/// The histories that words tell of, beside a list of so many nations; none if these are not well
/// shaped. Names stand in another list, so that none are told.
///
/// ```
/// use chronicle_trial::model::histories_told;
///
/// let row = [0x45_4e_47, 0x45_4e_47, 0x45_4e_47, 2, 5, 6, 7];
/// assert_eq!(histories_told(&row, 2).unwrap()[0].nation, Some(1));
/// assert_eq!(histories_told(&row, 1), None);
/// assert_eq!(histories_told(&row[1..], 2), None);
/// ```
pub fn histories_told(words: &[u32], nations: usize) -> Option<Vec<History>> {
    let history = |&[initial, latest, stored, nation, human, ..]: &[u32; 7]| {
        let [initial, latest, stored] = [tag(initial)?, tag(latest)?, tag(stored)?];
        let nation = (nation as usize <= nations).then(|| (nation as usize).checked_sub(1))?;
        Some(History { initial, latest, stored, nation, human: human != 0, names: vec![] })
    };
    whole(words)?.iter().map(history).collect()
}

fn whole<const WIDTH: usize>(words: &[u32]) -> Option<&[[u32; WIDTH]]> {
    let (rows, rest) = words.as_chunks();
    rest.is_empty().then_some(rows)
}

fn entry(&[when, kind, target]: &[u32; 3]) -> Option<Entry> {
    let kind = match (kind, target) {
        (0, _) => Kind::Switch(tag(target)?),
        (1, 0) => Kind::Appeared,
        (2, 0) => Kind::Annexed,
        _ => return None,
    };
    Some(Entry { date: date(when)?, kind })
}

fn tag(word: u32) -> Option<Tag> {
    let tag = tag_of_word(word);
    (check_tag(tag).is_ok() && tag_word(tag) == word).then_some(tag)
}

fn date(word: u32) -> Option<Date> {
    check_date(word).is_ok().then_some(word)
}
