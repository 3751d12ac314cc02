//! What the library answers about a lent chronicle, the record's own or any other, as values in memory
//! of its own.

mod ledgers;
mod players;

pub use players::{Name, NamedHistory, NamedPlayer};

use chronicle::layout::{Counts, LIMITS};
use chronicle::raw::{self, Chronicle};
use chronicle::rows::{BOOKING_WORDS, HISTORY_WORDS, PLAYER_WORDS};
use chronicle::Refusal;

use crate::pack::Tag;
use crate::rows::{tag_of_word, Booking, LedgerRow, Player};

/// The answers about a lent chronicle.
pub trait Told {
    /// Who entered which war of a record, with room for each of its war events.
    ///
    /// # Errors
    ///
    /// The refusal of the call, as everywhere here.
    ///
    /// ```
    /// use chronicle::{raw::Chronicle, Refusal};
    /// use chronicle_trial::pack::{pack, War, WarEvent};
    /// use chronicle_trial::{rows::Booking, sample, told::Told};
    ///
    /// let mut campaign = sample::worked();
    /// let joins = WarEvent { date: 14480531, kind: 1, tag: *b"ENG" };
    /// campaign.wars = vec![War { events: vec![joins, WarEvent { kind: 3, ..joins }] }];
    /// let rows = Chronicle { nations: &[0x45_4e_47, 0x47_42_52, 0x47_42_52, 0, 0], entries: &[] };
    /// let found = rows.bookings(&pack(&campaign));
    /// assert_eq!(found, Ok(vec![Booking { war: 0, tag: *b"ENG", stored: *b"GBR" }]));
    /// assert_eq!(rows.bookings(b"ATL"), Err(Refusal::NotARecord));
    /// ```
    fn bookings(self, record: &[u8]) -> Result<Vec<Booking>, Refusal>;

    /// A nation's ledger, for whose length it asks first. More than `most` rows are
    /// [`Refusal::NoRoom`].
    ///
    /// # Errors
    ///
    /// The refusal of the call.
    ///
    /// ```
    /// use chronicle::{raw::Chronicle, Refusal};
    /// use chronicle_trial::pack::{pack, LedgerName, Point};
    /// use chronicle_trial::{rows::LedgerRow, sample, told::Told};
    ///
    /// let mut campaign = sample::worked();
    /// let points = vec![Point { year: 1449, value: -2 }];
    /// campaign.ledger = vec![LedgerName { tag: *b"GBR", points }];
    /// let record = pack(&campaign);
    ///
    /// let gbr = 0x47_42_52;
    /// let rows = Chronicle { nations: &[gbr, gbr, gbr, 0, 1], entries: &[14480601, 1, 0] };
    /// let row = |year, value| LedgerRow { tag: *b"GBR", year, value };
    /// assert_eq!(rows.ledger(&record, 0, 2), Ok(vec![row(1449, -2), row(1450, 0)]));
    /// assert_eq!(rows.ledger(&record, 0, 1), Err(Refusal::NoRoom(None)));
    /// ```
    fn ledger(self, record: &[u8], nation: usize, most: usize) -> Result<Vec<LedgerRow>, Refusal>;

    /// The ledgers of all nations. It begins with room for as many rows as the record has points, and
    /// doubles it until all find room; more than `most` rows are [`Refusal::NoRoom`].
    ///
    /// # Errors
    ///
    /// The refusal of the call.
    ///
    /// ```
    /// use chronicle::{raw::Chronicle, Refusal};
    /// use chronicle_trial::pack::{pack, LedgerName};
    /// use chronicle_trial::{sample, told::Told};
    ///
    /// let mut campaign = sample::worked();
    /// campaign.ledger = vec![LedgerName { tag: *b"FRA", points: vec![] }];
    /// let record = pack(&campaign);
    ///
    /// let (gbr, fra) = (0x47_42_52, 0x46_52_41);
    /// let nations = [gbr, gbr, gbr, 0, 0, fra, fra, fra, 0, 0];
    /// let rows = Chronicle { nations: &nations, entries: &[] };
    /// let found = rows.ledgers(&record, 100).expect("there is room");
    /// let years: Vec<u16> = found[1].iter().map(|row| row.year).collect();
    /// assert_eq!((found[0].len(), &years[..]), (0, &[1445, 1446, 1447, 1448, 1449, 1450][..]));
    /// assert_eq!(rows.ledgers(&record, 5), Err(Refusal::NoRoom(None)));
    /// ```
    fn ledgers(self, record: &[u8], most: usize) -> Result<Vec<Vec<LedgerRow>>, Refusal>;

    /// The histories of a record, with room for every country and every pair of strings; names are
    /// bytes of the record.
    ///
    /// # Errors
    ///
    /// The refusal of the call.
    ///
    /// ```
    /// use chronicle::{raw::Chronicle, Refusal};
    /// use chronicle_trial::pack::{pack, WAS_PLAYER};
    /// use chronicle_trial::{sample, told::Told};
    ///
    /// let mut campaign = sample::worked();
    /// campaign.countries[1].flags = WAS_PLAYER;
    /// campaign.strings = ["Zoë", "FRA"].map(|s| s.as_bytes().to_vec()).to_vec();
    /// let record = pack(&campaign);
    /// let rows = Chronicle { nations: &[], entries: &[] };
    /// let found = rows.named_histories(&record).unwrap();
    /// assert_eq!((found[0].initial, found[0].nation, found[0].human), (*b"FRA", None, false));
    /// assert_eq!(found[0].names[0].text(), Some("Zoë"));
    /// assert_eq!(rows.named_histories(b"ATL"), Err(Refusal::NotARecord));
    /// ```
    fn named_histories(self, record: &[u8]) -> Result<Vec<NamedHistory<'_>>, Refusal>;

    /// The tag that play began with, by history words.
    ///
    /// # Errors
    ///
    /// The refusal of the call.
    ///
    /// ```
    /// use chronicle::{raw::Chronicle, Refusal};
    /// use chronicle_trial::told::Told;
    ///
    /// let (eng, gbr) = (0x45_4e_47, 0x47_42_52);
    /// let rows = Chronicle { nations: &[eng, gbr, gbr, 0, 1], entries: &[14480601, 1, 0] };
    /// let appeared = [eng, gbr, gbr, 1, 1, 0, 0];
    /// let bare = [gbr, gbr, gbr, 0, 0, 0, 0];
    /// assert_eq!(rows.starting(&appeared), Ok(Some(*b"ENG")));
    /// assert_eq!(rows.starting(&[appeared, bare].concat()), Ok(Some(*b"GBR")));
    /// assert_eq!(rows.starting(&[bare, bare].concat()), Ok(None));
    /// assert_eq!(rows.starting(&[eng]), Err(Refusal::NotWellShaped));
    /// ```
    fn starting(self, histories: &[u32]) -> Result<Option<Tag>, Refusal>;
}

impl Told for Chronicle<'_> {
    fn bookings(self, record: &[u8]) -> Result<Vec<Booking>, Refusal> {
        let events = record.first_chunk().map_or(0, |head| Counts::read(head).war_events);
        let mut out = vec![0; BOOKING_WORDS * events.min(LIMITS.war_events)];
        let rows = self.war_participants(record, &mut out)?;
        Ok(out.as_chunks().0[..rows].iter().copied().map(Booking::told).collect())
    }

    fn ledger(self, record: &[u8], nation: usize, most: usize) -> Result<Vec<LedgerRow>, Refusal> {
        ledgers::of_one(self, record, nation, most)
    }

    fn ledgers(self, record: &[u8], most: usize) -> Result<Vec<Vec<LedgerRow>>, Refusal> {
        ledgers::of_all(self, record, most)
    }

    fn named_histories(self, record: &[u8]) -> Result<Vec<NamedHistory<'_>>, Refusal> {
        let countries = record.first_chunk().map_or(0, |head| Counts::read(head).countries);
        let mut histories = vec![0; HISTORY_WORDS * countries.min(LIMITS.countries)];
        let mut names = vec![0; pairs(record)];
        let counts = self.player_histories(record, &mut histories, &mut names)?;
        let strings = players::strings(record);
        let named = |&row: &[u32; HISTORY_WORDS]| NamedHistory::told(row, &names, &strings);
        Ok(histories.as_chunks().0[..counts.histories].iter().map(named).collect())
    }

    fn starting(self, histories: &[u32]) -> Result<Option<Tag>, Refusal> {
        let mut out = [0];
        let found = self.starting_country(histories, &mut out)?;
        Ok((found > 0).then(|| tag_of_word(out[0])))
    }
}

/// The players of a record, with room for every pair of strings; names are bytes of the record.
///
/// # Errors
///
/// The refusal of the call.
///
/// ```
/// use chronicle::Refusal;
/// use chronicle_trial::{pack::pack, sample, told::named_players};
///
/// let mut campaign = sample::worked();
/// let [zoe, other] = ["Zoë".as_bytes(), b"\xff"].map(<[u8]>::to_vec);
/// campaign.strings = vec![zoe, b"ENG".to_vec(), other, b"FRA".to_vec()];
/// let record = pack(&campaign);
/// let found = named_players(&record).unwrap();
/// assert_eq!((found[0].name.text(), found[0].tag), (Some("Zoë"), *b"ENG"));
/// assert_eq!((found[1].name.text(), found[1].name.bytes), (None, &b"\xff"[..]));
/// assert_eq!(named_players(b"ATL"), Err(Refusal::NotARecord));
/// ```
pub fn named_players(record: &[u8]) -> Result<Vec<NamedPlayer<'_>>, Refusal> {
    let mut out = vec![0; PLAYER_WORDS * pairs(record)];
    let rows = raw::players(record, &mut out)?;
    let strings = players::strings(record);
    let named = |&row: &[u32; PLAYER_WORDS]| {
        let Player { name, tag } = Player::told(row);
        NamedPlayer { name: Name::numbered(&strings, name), tag }
    };
    Ok(out.as_chunks().0[..rows].iter().map(named).collect())
}

/// As many pairs of strings as a record has, or may have.
fn pairs(record: &[u8]) -> usize {
    let strings = record.first_chunk().map_or(0, |head| Counts::read(head).strings);
    strings.min(LIMITS.strings) / 2
}

/// The page of a record for the bytes of a selection, whatever they are.
///
/// # Errors
///
/// The refusal of the call.
///
/// ```
/// use chronicle::Refusal;
/// use chronicle_trial::{sample, told::page};
///
/// let page_of = |selection: &str| page(sample::WORKED, selection.as_bytes());
/// let told = "selected 3\nGBR ENG GBR 3 living\nFRA FRA FRA 0 living\nENG absent\n";
/// assert_eq!(page_of("GBR\nFRA\nENG\n"), Ok(told.into()));
/// assert_eq!(page_of(""), Ok("selected 0\n".into()));
/// assert_eq!(page_of("GBR"), Err(Refusal::BadQuestion));
/// assert_eq!(page(b"ATL", b"GBR"), Err(Refusal::NotARecord));
/// ```
pub fn page(record: &[u8], selection: &[u8]) -> Result<Vec<u8>, Refusal> {
    let mut out = vec![0; raw::page_room(selection.len())];
    let length = raw::write_page(record, selection, &mut out)?;
    out.truncate(length);
    Ok(out)
}
