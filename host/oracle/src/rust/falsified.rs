//! Wrong answers in place of the Rust's: whoever compares must notice each of them.

use eu4save::query::{NationEvents, PlayerHistory, ProvinceOwners};

use chronicle_trial::rows::{Booking, LedgerRow};

use super::Named;

/// Which of the Rust's answers is made wrong.
#[derive(Clone, Copy, Debug, PartialEq, Eq)]
pub enum Falsified {
    /// The last of several changes is left out.
    Changes,
    /// A nation loses the last of several entries.
    Nations,
    /// Nobody is ever found.
    Resolver,
    /// Everybody is booked under the tag that it joins with.
    Bookings,
    /// The first row of a ledger is left out.
    Ledger,
    /// The last player is left out.
    Players,
    /// Humans and others are exchanged.
    Histories,
    /// Nobody ever began.
    Start,
    /// Whoever lives is told to be annexed.
    Page,
}

impl Falsified {
    /// Every one, by the name of its answer.
    pub const ALL: [(&'static str, Falsified); 9] = [
        ("changes", Falsified::Changes),
        ("nations", Falsified::Nations),
        ("resolver", Falsified::Resolver),
        ("bookings", Falsified::Bookings),
        ("ledger", Falsified::Ledger),
        ("players", Falsified::Players),
        ("histories", Falsified::Histories),
        ("start", Falsified::Start),
        ("page", Falsified::Page),
    ];

    /// The one of this name.
    ///
    /// ```
    /// use chronicle_oracle::rust::Falsified;
    ///
    /// assert_eq!(Falsified::named("ledger"), Some(Falsified::Ledger));
    /// assert_eq!(Falsified::named("weather"), None);
    /// ```
    pub fn named(name: &str) -> Option<Falsified> {
        Falsified::ALL.into_iter().find(|(known, _)| *known == name).map(|(_, one)| one)
    }

    pub(super) fn changes(self, owners: &mut ProvinceOwners) {
        if self == Falsified::Changes && owners.changes.len() > 1 {
            owners.changes.pop();
        }
    }

    pub(super) fn nations(self, nations: &mut [NationEvents]) {
        if self == Falsified::Nations {
            for nation in nations.iter_mut().filter(|nation| nation.events.len() > 1) {
                nation.events.pop();
            }
        }
    }

    pub(super) fn bookings(self, bookings: &mut [Booking]) {
        if self == Falsified::Bookings {
            bookings.iter_mut().for_each(|booking| booking.stored = booking.tag);
        }
    }

    pub(super) fn ledger(self, rows: &mut Vec<LedgerRow>) {
        if self == Falsified::Ledger {
            drop(rows.drain(..rows.len().min(1)));
        }
    }

    pub(super) fn players(self, players: &mut Vec<Named>) {
        if self == Falsified::Players {
            players.pop();
        }
    }

    pub(super) fn histories(self, histories: &mut [PlayerHistory]) {
        if self == Falsified::Histories {
            histories.iter_mut().for_each(|history| history.is_human = !history.is_human);
        }
    }

    pub(super) fn page(self, page: String) -> String {
        match self {
            Falsified::Page => page.replace("living", "annexed"),
            _ => page,
        }
    }
}
