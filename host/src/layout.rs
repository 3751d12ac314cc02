//! Where things lie in a packed record (docs/FORMAT.md): row widths, limits and head offsets, said once.

use std::ops::Range;

use crate::rows::{
    BOOKING_WORDS, CHANGE_WORDS, COUNT_WORDS, ENTRY_WORDS, HISTORY_WORDS, NATION_WORDS,
    PLAYER_WORDS,
};

/// Bytes of the head.
pub const HEAD: usize = 44;
/// Bytes of a country row.
pub const COUNTRY: usize = 12;
/// Bytes of a previous tag.
pub const PREVIOUS_TAG: usize = 3;
/// Bytes of a switch.
pub const SWITCH: usize = 7;
/// Bytes of a province row.
pub const PROVINCE: usize = 7;
/// Bytes of an owner event.
pub const OWNER_EVENT: usize = 7;
/// Bytes of a war row.
pub const WAR: usize = 2;
/// Bytes of a war event.
pub const WAR_EVENT: usize = 8;
/// Bytes of a ledger name.
pub const LEDGER_NAME: usize = 5;
/// Bytes of a ledger point.
pub const POINT: usize = 6;

/// Offset of the head's flags.
pub const FLAGS_AT: usize = 5;
/// Offset of the start date.
pub const START_AT: usize = 6;
/// Offset of the current date.
pub const CURRENT_AT: usize = 10;
/// Offset of the number of countries, C.
pub const COUNTRIES_AT: usize = 14;
/// Offset of the number of provinces, P.
pub const PROVINCES_AT: usize = 16;
/// Offset of the number of previous tags, A.
pub const PREVIOUS_TAGS_AT: usize = 18;
/// Offset of the number of switches, B.
pub const SWITCHES_AT: usize = 22;
/// Offset of the number of owner events, E.
pub const OWNER_EVENTS_AT: usize = 26;
/// Offset of the number of strings, N.
pub const STRINGS_AT: usize = 30;
/// Offset of the number of wars, W.
pub const WARS_AT: usize = 32;
/// Offset of the number of war events, V.
pub const WAR_EVENTS_AT: usize = 34;
/// Offset of the number of ledger names, G.
pub const LEDGER_NAMES_AT: usize = 38;
/// Offset of the number of ledger points, Y.
pub const POINTS_AT: usize = 40;

/// The ten counts of the head.
#[derive(Clone, Copy, Debug, Default, PartialEq, Eq, Hash)]
pub struct Counts {
    /// C
    pub countries: usize,
    /// P
    pub provinces: usize,
    /// A
    pub previous_tags: usize,
    /// B
    pub switches: usize,
    /// E
    pub owner_events: usize,
    /// N
    pub strings: usize,
    /// W
    pub wars: usize,
    /// V
    pub war_events: usize,
    /// G
    pub ledger_names: usize,
    /// Y
    pub points: usize,
}

/// The largest counts a record may have.
pub const LIMITS: Counts = Counts {
    countries: 2_000,
    provinces: 8_000,
    previous_tags: 20_000,
    switches: 20_000,
    owner_events: 60_000,
    strings: 1_000,
    wars: 5_000,
    war_events: 100_000,
    ledger_names: 2_000,
    points: 1_000_000,
};

/// Each count of the head: its letter in Rules 1.4, offset, width and limit.
pub const HEAD_COUNTS: [(char, usize, usize, usize); 10] = [
    ('C', COUNTRIES_AT, 2, LIMITS.countries),
    ('P', PROVINCES_AT, 2, LIMITS.provinces),
    ('A', PREVIOUS_TAGS_AT, 4, LIMITS.previous_tags),
    ('B', SWITCHES_AT, 4, LIMITS.switches),
    ('E', OWNER_EVENTS_AT, 4, LIMITS.owner_events),
    ('N', STRINGS_AT, 2, LIMITS.strings),
    ('W', WARS_AT, 2, LIMITS.wars),
    ('V', WAR_EVENTS_AT, 4, LIMITS.war_events),
    ('G', LEDGER_NAMES_AT, 2, LIMITS.ledger_names),
    ('Y', POINTS_AT, 4, LIMITS.points),
];

/// Where each section lies; the strings run from `strings` to the end of the record.
#[derive(Clone, Debug, Default, PartialEq, Eq, Hash)]
pub struct Sections {
    /// Rows of [`COUNTRY`] bytes.
    pub countries: Range<usize>,
    /// Rows of [`PREVIOUS_TAG`] bytes.
    pub previous_tags: Range<usize>,
    /// Rows of [`SWITCH`] bytes.
    pub switches: Range<usize>,
    /// Rows of [`PROVINCE`] bytes.
    pub provinces: Range<usize>,
    /// Rows of [`OWNER_EVENT`] bytes.
    pub owner_events: Range<usize>,
    /// Rows of [`WAR`] bytes.
    pub wars: Range<usize>,
    /// Rows of [`WAR_EVENT`] bytes.
    pub war_events: Range<usize>,
    /// Rows of [`LEDGER_NAME`] bytes.
    pub ledger_names: Range<usize>,
    /// Rows of [`POINT`] bytes.
    pub points: Range<usize>,
    /// Where the first string begins.
    pub strings: usize,
}

/// How many 32-bit words to lend for each part of the answers, so that none is refused for want of
/// room. Ledgers have no such bound: a call tells their length.
#[derive(Clone, Copy, Debug, Default, PartialEq, Eq, Hash)]
pub struct Enough {
    /// Nation rows.
    pub nations: usize,
    /// Entry rows.
    pub entries: usize,
    /// Holders of the slots.
    pub holders: usize,
    /// Slots held by each country.
    pub held: usize,
    /// Change rows.
    pub changes: usize,
    /// The five counts.
    pub counts: usize,
    /// Booking rows.
    pub bookings: usize,
    /// Player rows.
    pub players: usize,
    /// History rows.
    pub histories: usize,
    /// Names of the histories.
    pub names: usize,
}

impl Counts {
    /// The counts as the head gives them, not yet held against the limits.
    ///
    /// ```
    /// use chronicle::layout::Counts;
    ///
    /// let record = std::fs::read("../samples/worked.atl").unwrap();
    /// let counts = Counts::read(record.first_chunk().unwrap());
    /// assert_eq!((counts.countries, counts.provinces, counts.switches), (2, 2, 1));
    /// ```
    pub fn read(head: &[u8; HEAD]) -> Counts {
        let short = |at: usize| usize::from(u16::from_le_bytes([head[at], head[at + 1]]));
        let long = |at: usize| short(at) | short(at + 2) << 16;
        Counts {
            countries: short(COUNTRIES_AT),
            provinces: short(PROVINCES_AT),
            previous_tags: long(PREVIOUS_TAGS_AT),
            switches: long(SWITCHES_AT),
            owner_events: long(OWNER_EVENTS_AT),
            strings: short(STRINGS_AT),
            wars: short(WARS_AT),
            war_events: long(WAR_EVENTS_AT),
            ledger_names: short(LEDGER_NAMES_AT),
            points: long(POINTS_AT),
        }
    }

    /// The words that are enough for every answer about an accepted record with these counts.
    ///
    /// ```
    /// use chronicle::layout::{Counts, Enough};
    ///
    /// let counts = Counts { countries: 2, provinces: 2, switches: 1, owner_events: 2, ..Counts::default() };
    /// let Enough { nations, entries, holders, held, changes, .. } = counts.enough();
    /// assert_eq!([nations, entries, holders, held, changes], [10, 15, 3, 2, 8]);
    /// ```
    pub fn enough(&self) -> Enough {
        Enough {
            nations: NATION_WORDS * self.countries,
            // An owner event brings two entries at most, and a switch one.
            entries: ENTRY_WORDS * (self.switches + 2 * self.owner_events),
            holders: self.provinces + 1,
            held: self.countries,
            changes: CHANGE_WORDS * self.owner_events,
            counts: COUNT_WORDS,
            bookings: BOOKING_WORDS * self.war_events,
            players: PLAYER_WORDS * (self.strings / 2),
            histories: HISTORY_WORDS * self.countries,
            names: self.strings / 2,
        }
    }

    /// Whether no count is above its limit.
    ///
    /// ```
    /// use chronicle::layout::{Counts, LIMITS};
    ///
    /// assert!(LIMITS.within_limits());
    /// assert!(!Counts { wars: 5_001, ..LIMITS }.within_limits());
    /// ```
    pub fn within_limits(&self) -> bool {
        self.countries <= LIMITS.countries
            && self.provinces <= LIMITS.provinces
            && self.previous_tags <= LIMITS.previous_tags
            && self.switches <= LIMITS.switches
            && self.owner_events <= LIMITS.owner_events
            && self.strings <= LIMITS.strings
            && self.wars <= LIMITS.wars
            && self.war_events <= LIMITS.war_events
            && self.ledger_names <= LIMITS.ledger_names
            && self.points <= LIMITS.points
    }

    /// Where the sections lie in a record with these counts.
    ///
    /// ```
    /// use chronicle::layout::{Counts, LIMITS};
    ///
    /// assert_eq!(Counts::default().sections().strings, 44);
    /// assert_eq!(LIMITS.sections().strings, 7_520_044);
    /// ```
    pub fn sections(&self) -> Sections {
        let mut end = HEAD;
        let mut section = |rows: usize, width: usize| {
            let start = end;
            end += rows * width;
            start..end
        };
        Sections {
            countries: section(self.countries, COUNTRY),
            previous_tags: section(self.previous_tags, PREVIOUS_TAG),
            switches: section(self.switches, SWITCH),
            provinces: section(self.provinces, PROVINCE),
            owner_events: section(self.owner_events, OWNER_EVENT),
            wars: section(self.wars, WAR),
            war_events: section(self.war_events, WAR_EVENT),
            ledger_names: section(self.ledger_names, LEDGER_NAME),
            points: section(self.points, POINT),
            strings: end,
        }
    }
}
