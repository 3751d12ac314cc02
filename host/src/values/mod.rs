//! The rows of the answers as values.

mod date;
mod ledger;
mod nations;
mod owners;
mod played;
mod resolved;
mod row;
mod tag;
mod wars;

pub use date::{Eu4Date, NotADate};
pub use ledger::{LedgerKind, LedgerPoint, NotALedger};
pub use nations::{Entry, EntryKind, Nation};
pub use owners::{OwnerChange, ProvinceId};
pub use played::{Name, Player, PlayerHistory};
pub use resolved::TagData;
pub use row::NotARow;
pub use tag::{CountryTag, NotATag};
pub use wars::{Side, WarParticipant};
