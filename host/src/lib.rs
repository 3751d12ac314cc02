//! The campaign chronicle: verified answers about the packed record of a strategy campaign.
//!
//! [`Record::open`] checks a record's bytes; an opened record gives its owner changes, its players, its
//! page and its [`Chronicle`], which knows the nations that lived, whose a tag is, who entered which
//! war, what the ledger says and who was played. Every answer comes from a function of the static
//! library libpage.a that is proved equal to a written rule; this package turns words into values.
//!
//! ```
//! use chronicle::{Record, Refusal};
//!
//! let bytes = std::fs::read("../samples/isles.atl").unwrap();
//! let record = Record::open(&bytes)?;
//! let chronicle = record.chronicle()?;
//! for nation in chronicle.nations() {
//!     println!("{}, now {}: {} entries", nation.initial, nation.latest, nation.entries.len());
//! }
//! assert_eq!(chronicle.starting_country()?, Some("TYR".parse()?));
//! # Ok::<(), Refusal>(())
//! ```
//!
//! Of bytes that are refused, [`Record::offence`] says in which row they offend, and how.
//!
//! Nothing here panics, whatever the bytes, but [`CountryTag::new`], which is for constants. A record and its
//! chronicle can be kept side by side and sent to any thread. Memory is lent as the record's head says is
//! enough. Calls need up to 1.8 MiB of stack: they run on the thread that makes them if so much is left there,
//! as it is on a thread of the default 2 MiB, and else on one of their own, which can cost a millisecond or
//! two. Who brings memory of their own calls [`raw`], which has the same functions over slices of words;
//! [`rows`] says how many words a row of each has, and [`layout`] where things lie in a record.
//!
//! `Rules 4.3` in the comments is that rule of docs/RULES.md.

mod chronicle;
mod deep;
pub mod layout;
mod offence;
pub mod raw;
mod record;
mod refusal;
pub mod rows;
mod values;

pub use chronicle::{Chronicle, TagResolverDated};
pub use offence::{Offence, Part, Place};
pub use record::Record;
pub use refusal::{Lacking, Refusal, Shortage};
pub use values::{
    CountryTag, Entry, EntryKind, Eu4Date, LedgerKind, LedgerPoint, Name, Nation, NotADate,
    NotALedger, NotARow, NotATag, OwnerChange, Player, PlayerHistory, ProvinceId, Side, TagData,
    WarParticipant,
};

/// The version of this package, which is that of include/chronicle.h.
pub const VERSION: &str = env!("CARGO_PKG_VERSION");
