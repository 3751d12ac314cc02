//! The answers, worked out from a campaign in the plainest way, from the text of the rules alone.
//!
//! It shares nothing with the proved functions nor with the Rust they were ported from, keeps no
//! running counts (who holds what is looked up afresh), and is what both are compared with: the
//! Rust where it answers, the proved functions everywhere, holder and held cells included.

mod changes;
mod ledger;
mod nations;
mod page;
mod players;
mod resolver;
mod shape;
mod wars;

pub use changes::{changes, events_on};
pub use ledger::{ledger, spans, Span};
pub use nations::{chronicle, Chronicle};
pub use page::{page, page_of, selected, MOST_BYTES, MOST_CHANGES, MOST_ENTRIES};
pub use players::{histories, players, starting_country};
pub use resolver::{answer, initial, initial_at, resolve, resolve_at};
pub use shape::{histories_told, nations_told};
pub use wars::bookings;
