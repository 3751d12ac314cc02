//! What had no room, and how much it takes.

use std::fmt;

/// What there was too little room for.
#[derive(Clone, Copy, Debug, PartialEq, Eq, PartialOrd, Ord, Hash)]
#[non_exhaustive]
pub enum Lacking {
    /// Bytes of a record that a page is asked of.
    PageRecord,
    /// Bytes of a page's selection, four for a tag.
    PageSelection,
    /// Owner changes of a record that a page is asked of.
    PageChanges,
    /// Entries of the nations of a record that a page is asked of.
    PageEntries,
    /// Rows of a ledger, or of all ledgers.
    LedgerRows,
    /// Bytes of stack, in a thread that the system did not start.
    Stack,
}

/// How much room there was, and how much is needed.
#[derive(Clone, Copy, Debug, PartialEq, Eq, PartialOrd, Ord, Hash)]
pub struct Shortage {
    /// Of what there was too little.
    pub lacking: Lacking,
    /// How much there was.
    pub room: usize,
    /// How much it takes; of all ledgers together, how much it takes at least.
    pub needed: usize,
}

impl fmt::Display for Shortage {
    fn fmt(&self, f: &mut fmt::Formatter<'_>) -> fmt::Result {
        let Shortage { lacking, room, needed } = self;
        match lacking {
            Lacking::PageRecord => {
                write!(f, "a page holds {room} bytes of a record, and this one has {needed}")
            }
            Lacking::PageSelection => {
                write!(f, "a page holds {room} bytes of a selection, and this one has {needed}")
            }
            Lacking::PageChanges => {
                write!(f, "a page holds {room} owner changes, and this record has {needed}")
            }
            Lacking::PageEntries => {
                write!(
                    f,
                    "a page holds {room} entries, and the nations of this record have {needed}"
                )
            }
            Lacking::LedgerRows => {
                write!(f, "there was room for {room} ledger rows, and it takes at least {needed}")
            }
            Lacking::Stack => {
                write!(f, "the system started no thread with {needed} bytes of stack")
            }
        }
    }
}

/// What to do about it.
pub(super) fn advice(shortage: Option<Shortage>) -> &'static str {
    match shortage.map(|shortage| shortage.lacking) {
        Some(Lacking::PageRecord | Lacking::PageChanges | Lacking::PageEntries) => {
            "ask for the nations instead, which have no such limit"
        }
        Some(Lacking::PageSelection) => "select fewer tags at a time",
        Some(Lacking::LedgerRows) => "ask with room for so many, or for fewer nations",
        Some(Lacking::Stack) => "end other threads, or allow more memory",
        None => "lend what the record's head says is enough, and of a page ask within its limits",
    }
}
