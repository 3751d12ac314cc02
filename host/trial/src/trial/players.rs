//! `players`, `player_histories` and `starting_country`.

use chronicle::raw::Chronicle;
use chronicle::raw::HistoryCounts;
use chronicle::Refusal;

use super::{same, torn};
use crate::guard::Lent;
use crate::pack::Tag;
use crate::rows::{entry_words, nation_words, player_words, tag_word, Nation, Player};
use crate::rows::{history_words, name_words, History};

/// Room longer than the answer, exactly as long, one cell short, and none.
pub fn accepted(record: &[u8], players: &[Player]) -> Result<(), String> {
    let words = player_words(players);
    played(record, words.len() + 5, Ok(&words))?;
    played(record, words.len(), Ok(&words))?;
    if !words.is_empty() {
        played(record, words.len() - 1, Err(Refusal::NoRoom(None)))?;
        played(record, 0, Err(Refusal::NoRoom(None)))?;
    }
    Ok(())
}

/// Room for both lists, and too little for either; and ill-shaped words, whatever the room.
pub fn histories(record: &[u8], nations: &[Nation], histories: &[History]) -> Result<(), String> {
    let [nations, entries] = [nation_words(nations), entry_words(nations)];
    let rows = Chronicle { nations: &nations, entries: &entries };
    let words = [history_words(histories), name_words(histories)];
    let [exact, ample] = [0, 5].map(|more| words.each_ref().map(|words| words.len() + more));
    recalled(rows, record, ample, Ok(words.each_ref().map(|words| &words[..])))?;
    recalled(rows, record, exact, Ok(words.each_ref().map(|words| &words[..])))?;
    for part in 0..2 {
        let one_short = exact[part].checked_sub(1);
        for length in one_short.into_iter().chain(one_short.map(|_| 0)) {
            let mut short = ample;
            short[part] = length;
            recalled(rows, record, short, Err(Refusal::NoRoom(None)))?;
        }
    }
    for torn in torn(rows) {
        recalled(torn, record, exact, Err(Refusal::NotWellShaped))?;
        recalled(torn, record, [0; 2], Err(Refusal::NotWellShaped))?;
    }
    Ok(())
}

/// Room for the tag, and none; and ill-shaped words, of histories or of the chronicle, whatever the
/// room.
pub fn starting(nations: &[Nation], words: &[u32], start: Option<Tag>) -> Result<(), String> {
    let behind = nations.len() as u32 + 1;
    let [nations, entries] = [nation_words(nations), entry_words(nations)];
    let rows = Chronicle { nations: &nations, entries: &entries };
    begun(rows, words, 3, Ok(start))?;
    begun(rows, words, 1, Ok(start))?;
    begun(rows, words, 0, start.map_or(Ok(None), |_| Err(Refusal::NoRoom(None))))?;
    for torn in torn(rows) {
        begun(torn, words, 1, Err(Refusal::NotWellShaped))?;
        begun(torn, words, 0, Err(Refusal::NotWellShaped))?;
    }
    for spoiled in spoiled(words, behind) {
        begun(rows, &spoiled, 1, Err(Refusal::NotWellShaped))?;
        begun(rows, &spoiled, 0, Err(Refusal::NotWellShaped))?;
    }
    Ok(())
}

/// Less than a row, a row of a nation that is not listed, and one without a stored tag.
fn spoiled(words: &[u32], behind: u32) -> [Vec<u32>; 3] {
    let tag = tag_word(*b"ENG");
    let rows: [&[u32]; 3] = [&[tag], &[tag, tag, tag, behind, 0, 0, 0], &[tag, tag, 0, 0, 0, 0, 0]];
    rows.map(|row| [words, row].concat())
}

/// The record's own number comes before 11 and 10, whatever the chronicle and the room are.
pub fn refused(record: &[u8], refusal: Refusal) -> Result<(), String> {
    for length in [0, 4, 60] {
        played(record, length, Err(refusal))?;
        for nations in [&[][..], &[7]] {
            let rows = Chronicle { nations, entries: &[] };
            recalled(rows, record, [length, 60 - length], Err(refusal))?;
        }
    }
    Ok(())
}

/// Asks for the players of a record with so many cells lent. Expected are a refusal, or the words
/// that are written first into the lent cells; no other cell may change.
///
/// ```
/// use chronicle::Refusal;
/// use chronicle_trial::{sample, trial::played};
///
/// assert_eq!(played(sample::WORKED, 4, Ok(&[])), Ok(()));
/// assert!(played(sample::WORKED, 4, Err(Refusal::NoRoom(None))).is_err());
/// ```
pub fn played(
    record: &[u8],
    length: usize,
    expected: Result<&[u32], Refusal>,
) -> Result<(), String> {
    let what = format!("players, lent {length} cells,");
    let mut lent = Lent::new(length);
    let found = chronicle::raw::players(record, lent.slice());
    same(&what, &found, &expected.map(|words| words.len() / 2))?;
    accounted(&what, &lent, expected.unwrap_or(&[]))
}

/// As [`played`], of histories and of the names that they point into.
///
/// ```
/// use chronicle::Refusal;
/// use chronicle::raw::Chronicle;
/// use chronicle_trial::{sample, trial::recalled};
///
/// let rows = Chronicle { nations: &[], entries: &[] };
/// assert_eq!(recalled(rows, sample::WORKED, [4, 0], Ok([&[], &[]])), Ok(()));
/// assert!(recalled(rows, sample::WORKED, [4, 0], Err(Refusal::NoRoom(None))).is_err());
/// ```
pub fn recalled(
    rows: Chronicle<'_>,
    record: &[u8],
    lengths: [usize; 2],
    expected: Result<[&[u32]; 2], Refusal>,
) -> Result<(), String> {
    let what = format!("player_histories, lent {lengths:?} cells,");
    let mut lent = lengths.map(Lent::new);
    let [histories, names] = lent.each_mut().map(Lent::slice);
    let found = rows.player_histories(record, histories, names);
    let counts =
        |words: [&[u32]; 2]| HistoryCounts { histories: words[0].len() / 7, names: words[1].len() };
    same(&what, &found, &expected.map(counts))?;
    let written = expected.unwrap_or([&[]; 2]);
    lent.iter().zip(written).try_for_each(|(lent, words)| accounted(&what, lent, words))
}

/// As [`played`], of the tag that play began with by these history words.
///
/// ```
/// use chronicle::Refusal;
/// use chronicle::raw::Chronicle;
/// use chronicle_trial::trial::begun;
///
/// let rows = Chronicle { nations: &[], entries: &[] };
/// assert_eq!(begun(rows, &[], 0, Ok(None)), Ok(()));
/// assert!(begun(rows, &[], 1, Err(Refusal::NotWellShaped)).is_err());
/// ```
pub fn begun(
    rows: Chronicle<'_>,
    histories: &[u32],
    length: usize,
    expected: Result<Option<Tag>, Refusal>,
) -> Result<(), String> {
    let what = format!("starting_country by {} words, lent {length} cells,", histories.len());
    let mut lent = Lent::new(length);
    let found = rows.starting_country(histories, lent.slice());
    same(&what, &found, &expected.map(|start| usize::from(start.is_some())))?;
    let start = expected.ok().flatten().map(tag_word);
    accounted(&what, &lent, start.as_slice())
}

fn accounted(what: &str, lent: &Lent, written: &[u32]) -> Result<(), String> {
    lent.holds(written).map_err(|error| format!("{what} answers well, but {error}"))
}
