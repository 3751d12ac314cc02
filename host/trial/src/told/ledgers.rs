//! Ledgers as values.

use chronicle::layout::{Counts, LIMITS};
use chronicle::raw::Chronicle;
use chronicle::rows::{LEDGER_WORDS, NATION_WORDS};
use chronicle::Refusal;

use crate::rows::LedgerRow;

/// The ledger of one nation, counted first; over so many rows there is no room.
pub fn of_one(
    rows: Chronicle<'_>,
    record: &[u8],
    nation: usize,
    most: usize,
) -> Result<Vec<LedgerRow>, Refusal> {
    let count = rows.nation_ledger_rows(record, nation, most.saturating_add(1))?;
    if count > most {
        return Err(Refusal::NoRoom(None));
    }
    let mut out = vec![0; LEDGER_WORDS * count];
    rows.nation_ledger(record, nation, &mut out)?;
    Ok(values(&out))
}

/// The ledgers of all nations, in room that is doubled until it suffices.
pub fn of_all(
    rows: Chronicle<'_>,
    record: &[u8],
    most: usize,
) -> Result<Vec<Vec<LedgerRow>>, Refusal> {
    let mut counts = vec![0; rows.nations.len() / NATION_WORDS];
    let mut room = most.min(points(record));
    loop {
        let mut out = vec![0; LEDGER_WORDS * room];
        match rows.nation_ledgers(record, &mut out, &mut counts) {
            Err(Refusal::NoRoom(_)) if room < most => room = most.min(2 * room + 1),
            answer => return answer.map(|rows| apart(&out[..LEDGER_WORDS * rows], &counts)),
        }
    }
}

/// How many points the head says that there are, at most as many as there may be.
fn points(record: &[u8]) -> usize {
    record.first_chunk().map_or(0, |head| Counts::read(head).points.min(LIMITS.points))
}

fn values(words: &[u32]) -> Vec<LedgerRow> {
    words.as_chunks().0.iter().copied().map(LedgerRow::told).collect()
}

/// Each nation's rows by themselves.
fn apart(mut words: &[u32], counts: &[u64]) -> Vec<Vec<LedgerRow>> {
    let own = |&count: &u64| {
        let (own, others) = words.split_at(LEDGER_WORDS * count as usize);
        words = others;
        values(own)
    };
    counts.iter().map(own).collect()
}
