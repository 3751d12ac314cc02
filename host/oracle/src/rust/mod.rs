//! The Rust's answers, as the rows of the rules.

mod falsified;
mod players;
mod resolver;

pub use falsified::Falsified;
pub use players::{player_history, Named};
pub use resolver::Resolver;

use chronicle_trial::pack::{Campaign, Date, Tag};
use chronicle_trial::rows::{Booking, Change, Entry, Kind, LedgerRow, Nation, Run};
use eu4save::query::{
    LedgerPoint, NationEvent, NationEventKind, NationEvents, ProvinceOwnerChange, ProvinceOwners,
    Query, ResolvedWarParticipant, ResolvedWarParticipants,
};
use eu4save::{CountryTag, TagResolver};

use crate::save::{self, save};

/// The Rust with a campaign loaded.
#[derive(Debug)]
pub struct Rust {
    query: Query,
    falsified: Option<Falsified>,
}

impl Rust {
    /// Loads a campaign.
    ///
    /// ```
    /// use chronicle_trial::sample;
    /// use chronicle_oracle::rust::Rust;
    ///
    /// let rust = Rust::of(&sample::worked());
    /// assert_eq!(rust.nations(&rust.owners())[1].stored, *b"FRA");
    /// ```
    pub fn of(campaign: &Campaign) -> Rust {
        Rust::with(campaign, None)
    }

    /// Loads a campaign, for answers of which one may be made wrong.
    ///
    /// ```
    /// use chronicle_oracle::rust::{Falsified, Rust};
    /// use chronicle_trial::sample;
    ///
    /// let rust = Rust::with(&sample::worked(), Some(Falsified::Changes));
    /// assert_eq!(rust.owners().changes.len(), 1);
    /// ```
    pub fn with(campaign: &Campaign, falsified: Option<Falsified>) -> Rust {
        Rust { query: Query::from_save(save(campaign)), falsified }
    }

    /// The Rust's resolver over a list of nations.
    ///
    /// ```
    /// use chronicle_oracle::rust::Rust;
    /// use chronicle_trial::sample;
    ///
    /// let resolver = Rust::of(&sample::worked()).resolver(&[]);
    /// assert_eq!(resolver.resolve(*b"ENG", 14441111), None);
    /// ```
    pub fn resolver(&self, nations: &[NationEvents]) -> Resolver {
        Resolver::with(nations, self.falsified)
    }

    /// Text as it stands, or wrong.
    pub(crate) fn page(&self, page: String) -> String {
        match self.falsified {
            Some(falsified) => falsified.page(page),
            None => page,
        }
    }

    /// The Rust's own answer, for what is asked of it next and for its time.
    ///
    /// ```
    /// use chronicle_trial::sample;
    /// use chronicle_oracle::rust::Rust;
    ///
    /// assert_eq!(Rust::of(&sample::worked()).owners().changes.len(), 2);
    /// ```
    pub fn owners(&self) -> ProvinceOwners {
        let mut owners = self.query.province_owners();
        self.falsified.inspect(|falsified| falsified.changes(&mut owners));
        owners
    }

    /// The Rust's own answer, in whatever order its hash map had.
    ///
    /// ```
    /// use chronicle_trial::sample;
    /// use chronicle_oracle::rust::Rust;
    ///
    /// let rust = Rust::of(&sample::worked());
    /// assert_eq!(rust.nation_events(&rust.owners()).len(), 2);
    /// ```
    pub fn nation_events(&self, owners: &ProvinceOwners) -> Vec<NationEvents> {
        let mut nations = self.query.nation_events(owners);
        self.falsified.inspect(|falsified| falsified.nations(&mut nations));
        nations
    }

    /// The nations by the bytes of their initial, which no two share.
    ///
    /// ```
    /// use chronicle_trial::{model, sample};
    /// use chronicle_oracle::rust::Rust;
    ///
    /// let rust = Rust::of(&sample::worked());
    /// let nations = rust.nations(&rust.owners());
    /// assert_eq!(nations, model::chronicle(&sample::worked()).nations);
    /// ```
    pub fn nations(&self, owners: &ProvinceOwners) -> Vec<Nation> {
        let mut nations: Vec<Nation> = self.nation_events(owners).iter().map(nation).collect();
        nations.sort_by_key(|nation| nation.initial);
        nations
    }

    /// The Rust's own answer, with the resolver that it made for it: what is freed later takes none
    /// of its time.
    ///
    /// ```
    /// use chronicle_trial::sample;
    /// use chronicle_oracle::rust::Rust;
    ///
    /// assert!(Rust::of(&sample::worked()).war_participants(&[]).1.is_empty());
    /// ```
    pub fn war_participants(
        &self,
        nations: &[NationEvents],
    ) -> (TagResolver, Vec<ResolvedWarParticipants>) {
        let resolver = TagResolver::create(nations);
        let wars = self.query.resolved_war_participants(&resolver);
        (resolver, wars)
    }

    /// The rows of all wars, numbered from 0.
    ///
    /// ```
    /// use chronicle_trial::sample;
    /// use chronicle_oracle::rust::Rust;
    ///
    /// assert!(Rust::of(&sample::worked()).bookings(&[]).is_empty());
    /// ```
    pub fn bookings(&self, nations: &[NationEvents]) -> Vec<Booking> {
        let (_, wars) = self.war_participants(nations);
        let mut bookings = Vec::new();
        for (war, participants) in wars.iter().map(|war| &war.participants).enumerate() {
            let row = |p: &ResolvedWarParticipant| Booking {
                war,
                tag: bytes(p.tag),
                stored: bytes(p.stored),
            };
            bookings.extend(participants.iter().map(row));
        }
        self.falsified.inspect(|falsified| falsified.bookings(&mut bookings));
        bookings
    }

    /// The Rust's own answer: the ledger whose values it leaves unaltered.
    ///
    /// ```
    /// use chronicle_trial::sample;
    /// use chronicle_oracle::rust::Rust;
    ///
    /// let rust = Rust::of(&sample::worked());
    /// let nations = rust.nation_events(&rust.owners());
    /// assert!(rust.ledger_points(&nations[0]).is_empty());
    /// ```
    pub fn ledger_points(&self, nation: &NationEvents) -> Vec<LedgerPoint> {
        self.query.nation_size_statistics_ledger(nation)
    }

    /// The same as rows.
    ///
    /// ```
    /// use chronicle_trial::sample;
    /// use chronicle_oracle::rust::Rust;
    ///
    /// let rust = Rust::of(&sample::worked());
    /// let nations = rust.nation_events(&rust.owners());
    /// assert!(rust.ledger(&nations[0]).is_empty());
    /// ```
    pub fn ledger(&self, nation: &NationEvents) -> Vec<LedgerRow> {
        let row = |p: &LedgerPoint| LedgerRow { tag: bytes(p.tag), year: p.year, value: p.value };
        let mut rows = self.ledger_points(nation).iter().map(row).collect();
        self.falsified.inspect(|falsified| falsified.ledger(&mut rows));
        rows
    }
}

/// The Rust's changes as rows.
///
/// ```
/// use chronicle_trial::{model, sample};
/// use chronicle_oracle::rust::{changes, Rust};
///
/// let owners = Rust::of(&sample::worked()).owners();
/// assert_eq!(changes(&owners), model::changes(&sample::worked()));
/// ```
pub fn changes(owners: &ProvinceOwners) -> Vec<Change> {
    let row = |change: &ProvinceOwnerChange| Change {
        date: change.date.number(),
        id: change.province.as_u16(),
        from: bytes(change.from),
        to: bytes(change.to),
    };
    owners.changes.iter().map(row).collect()
}

/// The slice that the Rust gives lies in the list of changes: its place there is where it begins,
/// also if it is empty.
///
/// ```
/// use chronicle_trial::{rows::Run, sample};
/// use chronicle_oracle::rust::{events_on, Rust};
///
/// let owners = Rust::of(&sample::worked()).owners();
/// assert_eq!(events_on(&owners, 14470101), Run { first: 1, count: 1 });
/// assert_eq!(events_on(&owners, 14470102), Run { first: 2, count: 0 });
/// ```
pub fn events_on(owners: &ProvinceOwners, date: Date) -> Run {
    let found = owners.events_on(save::date(date));
    let distance = found.as_ptr() as usize - owners.changes.as_ptr() as usize;
    Run { first: distance / size_of::<ProvinceOwnerChange>(), count: found.len() }
}

/// A nation as the Rust has it, for what is asked about any list of nations.
///
/// ```
/// use chronicle_trial::{model, sample};
/// use chronicle_oracle::rust::{nation, nation_events};
///
/// let expected = &model::chronicle(&sample::worked()).nations[0];
/// assert_eq!(nation(&nation_events(expected)), *expected);
/// ```
pub fn nation_events(nation: &Nation) -> NationEvents {
    let event = |entry: &Entry| NationEvent {
        date: save::date(entry.date),
        kind: match entry.kind {
            Kind::Switch(target) => NationEventKind::TagSwitch(save::tag(target)),
            Kind::Appeared => NationEventKind::Appeared,
            Kind::Annexed => NationEventKind::Annexed,
        },
    };
    NationEvents {
        initial: save::tag(nation.initial),
        latest: save::tag(nation.latest),
        stored: save::tag(nation.stored),
        events: nation.entries.iter().map(event).collect(),
    }
}

/// A nation of the Rust as rows.
///
/// ```
/// use chronicle_trial::sample;
/// use chronicle_oracle::rust::{nation, Rust};
///
/// let rust = Rust::of(&sample::worked());
/// assert_eq!(nation(&rust.nation_events(&rust.owners())[0]).initial.len(), 3);
/// ```
pub fn nation(events: &NationEvents) -> Nation {
    let entry = |event: &NationEvent| Entry {
        date: event.date.number(),
        kind: match event.kind {
            NationEventKind::TagSwitch(target) => Kind::Switch(bytes(target)),
            NationEventKind::Appeared => Kind::Appeared,
            NationEventKind::Annexed => Kind::Annexed,
        },
    };
    Nation {
        initial: bytes(events.initial),
        latest: bytes(events.latest),
        stored: bytes(events.stored),
        entries: events.events.iter().map(entry).collect(),
    }
}

/// A tag's three bytes.
///
/// ```
/// use chronicle_oracle::{rust::bytes, save::tag};
///
/// assert_eq!(bytes(tag(*b"ENG")), *b"ENG");
/// ```
pub fn bytes(tag: CountryTag) -> Tag {
    tag.as_bytes().try_into().expect("a tag has three bytes")
}
