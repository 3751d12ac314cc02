//! What the Rust answers of whole records: changes, nations and their entries.

use chronicle::rows::{CHANGE_WORDS, ENTRY_WORDS, NATION_WORDS, RUN_WORDS};

use super::Front;

/// Words of a day that is asked about, with its answer.
pub const DAY_WORDS: usize = 1 + RUN_WORDS;

/// The answers of one record, as words. The holders of slots and the slots held are the model's,
/// since the Rust does not give them.
#[derive(Clone, Debug, PartialEq, Eq)]
#[allow(missing_docs)]
pub struct Answers {
    pub record: Vec<u8>,
    pub changes: Vec<u32>,
    /// Day, begin and length of its changes.
    pub days: Vec<[u32; DAY_WORDS]>,
    pub nations: Vec<u32>,
    pub entries: Vec<u32>,
    pub holders: Vec<u32>,
    pub held: Vec<u32>,
}

/// Reads crates/answer_vectors/data/answers.bin; none if that is not what these bytes are.
///
/// An entry has
///
/// - seven numbers: bytes of the record, changes, days asked about, nations, entries, slots,
///   countries;
/// - the record's bytes;
/// - each change in 4 words, each day in 3 (date, first, count: what `events_on` answers), each
///   nation in 5, each entry in 3; the holder of each slot, and the slots held by each country, a
///   word each.
///
/// ```
/// use chronicle_trial::stored::answers;
///
/// let mut file = vec![0; 28];
/// file[4] = 1;
/// assert_eq!(answers(&file), None);
/// file.extend([7; 16]);
/// assert_eq!(answers(&file).unwrap()[0].changes, [0x07_07_07_07; 4]);
/// ```
pub fn answers(file: &[u8]) -> Option<Vec<Answers>> {
    Front(file).each(entry)
}

fn entry(front: &mut Front) -> Option<Answers> {
    let [length, changes, days, nations, entries, slots, countries] = front.counts()?;
    Some(Answers {
        record: front.bytes(length)?.to_vec(),
        changes: front.words(CHANGE_WORDS * changes)?,
        days: front.words(DAY_WORDS * days)?.as_chunks().0.to_vec(),
        nations: front.words(NATION_WORDS * nations)?,
        entries: front.words(ENTRY_WORDS * entries)?,
        holders: front.words(slots)?,
        held: front.words(countries)?,
    })
}
