//! `check`, `province_owners` and `events_on`: what is asked of a record alone.

use super::{c, counted, refusal};
use crate::rows::RUN_WORDS;
use crate::Refusal;

/// Says whether the bytes are a packed record the chronicle accepts, and if not, why.
///
/// Any bytes at all may be given; nothing is written. Needs 72 KiB of stack.
///
/// # Panics
///
/// If the library answers a number that is none of a record's (Rules 2.2).
///
/// ```
/// use chronicle::{raw::check, Refusal};
///
/// let record = std::fs::read("../samples/worked.atl").unwrap();
/// assert_eq!(check(&record), Ok(()));
/// assert_eq!(check(&record[..102]), Err(Refusal::SizesDisagree));
/// assert_eq!(check(b""), Err(Refusal::NotARecord));
/// ```
pub fn check(record: &[u8]) -> Result<(), Refusal> {
    // SAFETY: pointer and length come from one live slice, so that many bytes can be read; the
    // function only reads them, keeps no pointer, and does not read at all if the length is 0.
    let answer = unsafe { c::check(record.as_ptr(), record.len()) };
    if answer == 0 {
        return Ok(());
    }
    match refusal(answer) {
        Some(refusal) if refusal.is_of_record() => Err(refusal),
        _ => panic!("check answered {answer}, which is no refusal of a record"),
    }
}

/// Writes the owner changes of a record, four words each (date, id, from, to), and says how many they
/// are. Needs 1 MiB of stack.
///
/// # Panics
///
/// If the library answers a number that is neither a count nor a refusal.
///
/// ```
/// use chronicle::{raw::province_owners, Refusal};
///
/// let record = std::fs::read("../samples/worked.atl").unwrap();
/// let mut out = [0; 9];
/// assert_eq!(province_owners(&record, &mut out), Ok(2));
/// assert_eq!([out[0], out[1], out[4], out[5], out[8]], [14460101, 1, 14470101, 2, 0]);
/// assert_eq!(province_owners(&record, &mut out[..7]), Err(Refusal::NoRoom(None)));
/// ```
pub fn province_owners(record: &[u8], out: &mut [u32]) -> Result<usize, Refusal> {
    // SAFETY: each pointer comes with the length of the live slice it belongs to; the function
    // reads the one, writes within the other, and keeps neither.
    let answer = unsafe {
        c::chronicle_province_owners(record.as_ptr(), record.len(), out.as_mut_ptr(), out.len())
    };
    counted("province_owners", answer)
}

/// Writes where the changes of a date begin among a record's changes, and how many they are. Needs
/// 1 MiB of stack.
///
/// # Panics
///
/// If the library answers a number that is neither 2 nor minus a refusal's.
///
/// ```
/// use chronicle::{raw::events_on, Refusal};
///
/// let record = std::fs::read("../samples/worked.atl").unwrap();
/// let mut out = [0; 2];
/// assert_eq!(events_on(&record, 14470101, &mut out), Ok(()));
/// assert_eq!(out, [1, 1]);
/// assert_eq!(events_on(&record, 14440229, &mut out), Err(Refusal::BadQuestion));
/// ```
pub fn events_on(record: &[u8], date: u32, out: &mut [u32]) -> Result<(), Refusal> {
    // SAFETY: as for `province_owners`.
    let answer = unsafe {
        c::chronicle_events_on(record.as_ptr(), record.len(), date, out.as_mut_ptr(), out.len())
    };
    assert_eq!(counted("events_on", answer)?, RUN_WORDS, "events_on answers a run");
    Ok(())
}
