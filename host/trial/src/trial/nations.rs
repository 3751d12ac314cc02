//! `nation_events`.

use chronicle::raw::{nation_events, Room};
use chronicle::Refusal;

use super::same;
use crate::guard::Lent;
use crate::model::Chronicle;
use crate::rows::{change_words, entry_words, nation_words, tag_word};

/// What is written into each of the six slices.
type Words = [Vec<u32>; 6];

/// With room for exactly the answer and for more; with one cell too few, or none, in each slice.
pub fn accepted(record: &[u8], chronicle: &Chronicle) -> Result<(), String> {
    let words = words(chronicle);
    let exact: [usize; 6] = std::array::from_fn(|part| words[part].len());
    let ample = exact.map(|length| length + 3);
    call(record, exact, Ok(()), &words)?;
    call(record, ample, Ok(()), &words)?;
    for part in 0..6 {
        let one_short = exact[part].checked_sub(1);
        for length in one_short.into_iter().chain(one_short.map(|_| 0)) {
            let mut short = ample;
            short[part] = length;
            call(record, short, Err(Refusal::NoRoom(None)), &words)?;
        }
    }
    // Five counts are written for every record, so that no call can do with nothing.
    call(record, [0; 6], Err(Refusal::NoRoom(None)), &words)
}

/// The record's own number comes before 10, whatever the slices are.
pub fn refused(record: &[u8], refusal: Refusal) -> Result<(), String> {
    for length in [0, 4, 60] {
        call(record, [length; 6], Err(refusal), &Words::default())?;
    }
    Ok(())
}

fn words(chronicle: &Chronicle) -> Words {
    let Chronicle { changes, nations, holders, held } = chronicle;
    let entries = nations.iter().map(|nation| nation.entries.len()).sum();
    let counts = [nations.len(), entries, holders.len(), held.len(), changes.len()];
    [
        nation_words(nations),
        entry_words(nations),
        holders.iter().map(|holder| holder.map_or(0, tag_word)).collect(),
        held.iter().map(|&slots| slots as u32).collect(),
        change_words(changes),
        counts.map(|count| count as u32).to_vec(),
    ]
}

fn call(
    record: &[u8],
    lengths: [usize; 6],
    expected: Result<(), Refusal>,
    words: &Words,
) -> Result<(), String> {
    let what = format!("nation_events, lent {lengths:?} cells,");
    let mut lent = lengths.map(Lent::new);
    let [nations, entries, holders, held, changes, counts] = lent.each_mut().map(Lent::slice);
    let room = Room { nations, entries, holders, held, changes, counts };
    same(&what, &nation_events(record, room), &expected)?;
    for (part, lent) in lent.iter().enumerate() {
        let written = if expected.is_ok() { &words[part][..] } else { &[] };
        lent.holds(written)
            .map_err(|error| format!("{what} answers well, but in slice {part} {error}"))?;
    }
    Ok(())
}
