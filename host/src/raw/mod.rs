//! The C functions of libpage.a, made safe to call, for those who bring their own memory.
//!
//! Each takes any bytes and any slices of 32-bit words, and writes its answer to the front of what it
//! is lent. A refusal has written nothing, and no cell behind an answer is ever written. How much to
//! lend, a record's head tells: [`Counts::enough`](crate::layout::Counts::enough).
//!
//! A tag's word is a×65536 + b×256 + c of its bytes, a date's year×10000 + month×100 + day.
//!
//! These calls run on the thread that makes them and need the stack that each names; 2 MiB, which a
//! thread has that is started without a size, are enough for all.

mod bookings;
mod c;
mod ledger;
mod nations;
mod page;
mod players;
mod record;
mod resolver;

pub use nations::{nation_events, Room};
pub use page::{page_room, write_page, LONGEST_PAGE};
pub use players::{players, HistoryCounts};
pub use record::{check, events_on, province_owners};
pub use resolver::{Chronicle, Question, TagData};

use crate::Refusal;

/// A count, or minus the number of a refusal.
fn counted(function: &str, answer: i64) -> Result<usize, Refusal> {
    match (usize::try_from(answer), answer.checked_neg().and_then(refusal)) {
        (Ok(count), _) => Ok(count),
        (_, Some(refusal)) => Err(refusal),
        _ => panic!("{function} answered {answer}, which is no refusal"),
    }
}

fn refusal(number: i64) -> Option<Refusal> {
    u8::try_from(number).ok().and_then(Refusal::from_number)
}
