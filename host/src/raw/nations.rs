//! `nation_events`: the chronicle of a record.

use super::{c, counted};
use crate::rows::COUNT_WORDS;
use crate::Refusal;

/// The slices lent to [`nation_events`].
#[derive(Debug)]
pub struct Room<'a> {
    /// Five words a nation: initial, latest, stored, first entry, entry count.
    pub nations: &'a mut [u32],
    /// Three words an entry: its date, what happened (0 a switch, 1 Appeared, 2 Annexed), and a switch's target.
    pub entries: &'a mut [u32],
    /// The holder of each of the slots 0 to P, a word each, 0 for nobody.
    pub holders: &'a mut [u32],
    /// The slots held by each country, a word each.
    pub held: &'a mut [u32],
    /// Four words a change.
    pub changes: &'a mut [u32],
    /// The numbers of nations, entries, slots, countries and changes.
    pub counts: &'a mut [u32],
}

/// Writes the nations of a record with their entries, who holds each slot after the last change,
/// how many slots each country holds then, the changes, and the five counts. One slice that is
/// shorter than its part of the answer is [`Refusal::NoRoom`], and then none is written.
///
/// It needs 1.5 MiB of stack.
///
/// # Panics
///
/// If the library answers a number that is neither 5 nor minus a refusal's.
///
/// ```
/// use chronicle::raw::{nation_events, Room};
/// use chronicle::Refusal;
///
/// let record = std::fs::read("../samples/worked.atl").unwrap();
/// let [mut nations, mut entries, mut holders] = [[0; 10]; 3];
/// let [mut held, mut changes, mut counts] = [[0; 8]; 3];
/// let room = Room {
///     nations: &mut nations,
///     entries: &mut entries,
///     holders: &mut holders,
///     held: &mut held,
///     changes: &mut changes,
///     counts: &mut counts,
/// };
/// assert_eq!(nation_events(&record, room), Ok(()));
/// assert_eq!(counts, [2, 3, 3, 2, 2, 0, 0, 0]);
/// let [eng, gbr, fra] = [0x45_4e_47, 0x47_42_52, 0x46_52_41];
/// assert_eq!(nations, [eng, gbr, gbr, 0, 3, fra, fra, fra, 3, 0]);
/// assert_eq!(entries, [14460101, 2, 0, 14470101, 1, 0, 14480601, 0, gbr, 0]);
/// assert_eq!(holders[..4], [0, fra, gbr, 0]);
/// assert_eq!(held[..3], [1, 1, 0]);
///
/// let room = Room {
///     nations: &mut nations[..9],
///     entries: &mut entries,
///     holders: &mut holders,
///     held: &mut held,
///     changes: &mut changes,
///     counts: &mut counts,
/// };
/// assert_eq!(nation_events(&record, room), Err(Refusal::NoRoom(None)));
/// ```
pub fn nation_events(record: &[u8], room: Room<'_>) -> Result<(), Refusal> {
    // SAFETY: as for `province_owners`; the slices are borrowed apart, so that none overlap.
    let answer = unsafe {
        c::chronicle_nation_events(
            record.as_ptr(),
            record.len(),
            room.nations.as_mut_ptr(),
            room.nations.len(),
            room.entries.as_mut_ptr(),
            room.entries.len(),
            room.holders.as_mut_ptr(),
            room.holders.len(),
            room.held.as_mut_ptr(),
            room.held.len(),
            room.changes.as_mut_ptr(),
            room.changes.len(),
            room.counts.as_mut_ptr(),
            room.counts.len(),
        )
    };
    assert_eq!(counted("nation_events", answer)?, COUNT_WORDS, "nation_events answers counts");
    Ok(())
}
