//! Calls that need more stack than the thread which makes them may have.

mod stack;

use std::panic::resume_unwind;
use std::thread;

use crate::refusal::{Lacking, Shortage};
use crate::Refusal;

/// Bytes of stack that a call must find left: more than include/chronicle.h names for it, and than a
/// thread was measured to need on records at the limits.
#[derive(Clone, Copy, Debug)]
pub(crate) enum Depth {
    /// `check`, for which 64 KiB were enough.
    Check = 192 << 10,
    /// Players, of 60 KiB, ledgers, of 108, and histories, of 156.
    Rows = 576 << 10,
    /// Owner changes, of 1,000 KiB, those of a day, bookings, of 668, and many questions, of 632.
    Changes = 1_152 << 10,
    /// The chronicle, of 1,508 KiB.
    Nations = 1_664 << 10,
    /// The page, of 1,708 KiB.
    Page = 1_920 << 10,
}

/// More than twice what the deepest call needs.
const STACK: usize = 4 << 20;

/// Makes a call where the stack suffices: here if so much is left, else on a thread of its own. If the
/// system starts none, that is [`Refusal::NoRoom`].
pub(crate) fn deep<T: Send>(
    depth: Depth,
    call: impl FnOnce() -> Result<T, Refusal> + Send,
) -> Result<T, Refusal> {
    if stack::left().is_some_and(|left| left >= depth as usize) {
        return call();
    }
    thread::scope(|scope| {
        let thread = thread::Builder::new().stack_size(STACK).spawn_scoped(scope, call);
        let shortage = Shortage { lacking: Lacking::Stack, room: 0, needed: STACK };
        let thread = thread.map_err(|_| Refusal::NoRoom(Some(shortage)))?;
        thread.join().unwrap_or_else(|panic| resume_unwind(panic))
    })
}

#[cfg(test)]
mod tests;
