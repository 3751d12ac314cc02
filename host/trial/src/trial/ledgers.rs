//! `nation_ledger`, `nation_ledger_rows` and `nation_ledgers`.

use chronicle::raw::Chronicle;
use chronicle::Refusal;

use super::same;
use crate::guard::Lent;
use crate::rows::{entry_words, ledger_words, nation_words, LedgerRow, Nation};

/// The ledgers of these nations each by itself, of all together, and of nations that are not in
/// the list; and with ill-shaped words, whatever is asked for.
pub fn accepted(
    record: &[u8],
    nations: &[Nation],
    ledgers: &[Vec<LedgerRow>],
    each: &[usize],
) -> Result<(), String> {
    let [words, entries] = [nation_words(nations), entry_words(nations)];
    let rows = Chronicle { nations: &words, entries: &entries };
    for (turn, &nation) in each.iter().enumerate() {
        one(rows, record, nation, &ledger_words(&ledgers[nation]), turn)?;
    }
    let past = nations.len();
    for nation in [past, past + 1, usize::MAX] {
        refused_one(rows, record, nation, Refusal::NoSuchNation)?;
    }
    for torn in super::torn(rows) {
        for nation in [0, past] {
            refused_one(torn, record, nation, Refusal::NotWellShaped)?;
        }
        for lengths in [[0, 0], [30, past]] {
            ledgers_told(torn, record, lengths, Err(Refusal::NotWellShaped))?;
        }
    }
    all(rows, record, ledgers)
}

/// The record's own number comes before 11, 13 and 10, whatever the chronicle and the room are.
pub fn refused(record: &[u8], refusal: Refusal) -> Result<(), String> {
    let empty = Chronicle { nations: &[], entries: &[] };
    let torn = Chronicle { nations: &[7], entries: &[] };
    for rows in [empty, torn] {
        refused_one(rows, record, 0, refusal)?;
        ledgers_told(rows, record, [0, 0], Err(refusal))?;
        ledgers_told(rows, record, [60, 4], Err(refusal))?;
    }
    Ok(())
}

/// Exactly the room that is needed, and by turns more, a cell less and none; and how many rows
/// there are, counted to the end or not.
fn one(
    rows: Chronicle<'_>,
    record: &[u8],
    nation: usize,
    words: &[u32],
    turn: usize,
) -> Result<(), String> {
    let [exact, count] = [words.len(), words.len() / 3];
    ledger_told(rows, record, nation, exact, Ok(words))?;
    let other = [exact + 5, exact.saturating_sub(1), 0, exact + 1][turn % 4];
    let expected = if other < exact { Err(Refusal::NoRoom(None)) } else { Ok(words) };
    ledger_told(rows, record, nation, other, expected)?;
    let most = [usize::MAX, count, count.saturating_sub(1), count + 1, 0][turn % 5];
    rows_told(rows, record, nation, most, Ok(count.min(most)))
}

fn refused_one(
    rows: Chronicle<'_>,
    record: &[u8],
    nation: usize,
    refusal: Refusal,
) -> Result<(), String> {
    for length in [0, 60] {
        ledger_told(rows, record, nation, length, Err(refusal))?;
        rows_told(rows, record, nation, length, Err(refusal))?;
    }
    Ok(())
}

/// Room enough for all; a cell less, and none, of either kind.
fn all(rows: Chronicle<'_>, record: &[u8], ledgers: &[Vec<LedgerRow>]) -> Result<(), String> {
    let words: Vec<u32> = ledgers.iter().flat_map(|ledger| ledger_words(ledger)).collect();
    let counts: Vec<u64> = ledgers.iter().map(|ledger| ledger.len() as u64).collect();
    let exact = [words.len(), counts.len()];
    ledgers_told(rows, record, exact, Ok((&words, &counts)))?;
    ledgers_told(rows, record, exact.map(|length| length + 5), Ok((&words, &counts)))?;
    for part in [0, 1] {
        let one_short = exact[part].checked_sub(1);
        for length in one_short.into_iter().chain(one_short.map(|_| 0)) {
            let mut short = exact;
            short[part] = length;
            ledgers_told(rows, record, short, Err(Refusal::NoRoom(None)))?;
        }
    }
    Ok(())
}

/// Asks for a nation's ledger with so many cells lent. Expected are a refusal, or the words that
/// are written first into the lent cells; no other cell may change.
///
/// ```
/// use chronicle::Refusal;
/// use chronicle::raw::Chronicle;
/// use chronicle_trial::{sample, trial::ledger_told};
///
/// let rows = Chronicle { nations: &[0x45_4e_47, 0x45_4e_47, 0x45_4e_47, 0, 0], entries: &[] };
/// assert_eq!(ledger_told(rows, sample::WORKED, 0, 4, Ok(&[])), Ok(()));
/// assert_eq!(ledger_told(rows, sample::WORKED, 1, 4, Err(Refusal::NoSuchNation)), Ok(()));
/// assert!(ledger_told(rows, sample::WORKED, 0, 4, Err(Refusal::NoRoom(None))).is_err());
/// ```
pub fn ledger_told(
    rows: Chronicle<'_>,
    record: &[u8],
    nation: usize,
    length: usize,
    expected: Result<&[u32], Refusal>,
) -> Result<(), String> {
    let what = format!("nation_ledger of nation {nation}, lent {length} cells,");
    let mut lent = Lent::new(length);
    let found = rows.nation_ledger(record, nation, lent.slice());
    same(&what, &found, &expected.map(|words| words.len() / 3))?;
    let written = expected.unwrap_or(&[]);
    lent.holds(written).map_err(|error| format!("{what} answers well, but {error}"))
}

/// Asks how many rows a nation's ledger has, of which no more than `most` are counted.
///
/// ```
/// use chronicle::raw::Chronicle;
/// use chronicle_trial::{sample, trial::rows_told};
///
/// let rows = Chronicle { nations: &[0x45_4e_47, 0x45_4e_47, 0x45_4e_47, 0, 0], entries: &[] };
/// assert_eq!(rows_told(rows, sample::WORKED, 0, 4, Ok(0)), Ok(()));
/// assert!(rows_told(rows, sample::WORKED, 0, 4, Ok(1)).is_err());
/// ```
pub fn rows_told(
    rows: Chronicle<'_>,
    record: &[u8],
    nation: usize,
    most: usize,
    expected: Result<usize, Refusal>,
) -> Result<(), String> {
    let what = format!("nation_ledger_rows of nation {nation}, at most {most},");
    same(&what, &rows.nation_ledger_rows(record, nation, most), &expected)
}

/// Asks for the ledgers of all nations with so many cells lent for rows and for their numbers.
/// Expected are a refusal, or what is written first into either; no other cell may change.
///
/// ```
/// use chronicle::Refusal;
/// use chronicle::raw::Chronicle;
/// use chronicle_trial::{sample, trial::ledgers_told};
///
/// let rows = Chronicle { nations: &[0x45_4e_47, 0x45_4e_47, 0x45_4e_47, 0, 0], entries: &[] };
/// assert_eq!(ledgers_told(rows, sample::WORKED, [4, 2], Ok((&[], &[0]))), Ok(()));
/// assert_eq!(ledgers_told(rows, sample::WORKED, [4, 0], Err(Refusal::NoRoom(None))), Ok(()));
/// assert!(ledgers_told(rows, sample::WORKED, [4, 2], Ok((&[], &[]))).is_err());
/// ```
pub fn ledgers_told(
    rows: Chronicle<'_>,
    record: &[u8],
    lengths: [usize; 2],
    expected: Result<(&[u32], &[u64]), Refusal>,
) -> Result<(), String> {
    let what = format!("nation_ledgers, lent {lengths:?} cells,");
    let (mut out, mut counts) = (Lent::new(lengths[0]), Lent::new(lengths[1]));
    let found = rows.nation_ledgers(record, out.slice(), counts.slice());
    same(&what, &found, &expected.map(|(words, _)| words.len() / 3))?;
    let (words, numbers) = expected.unwrap_or((&[], &[]));
    out.holds(words).map_err(|error| format!("{what} answers well, but {error}"))?;
    counts.holds(numbers).map_err(|error| format!("{what} answers well, but of counts {error}"))
}
