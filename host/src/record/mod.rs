//! An accepted record, and what is asked of it alone.

mod kept;
mod page;
mod rows;

use std::borrow::Cow;
use std::ops::Range;
use std::sync::Arc;

use crate::deep::{deep, Depth};
use crate::layout::{Counts, CURRENT_AT, FLAGS_AT, START_AT};
use crate::rows::{PLAYER_WORDS, RUN_WORDS};
use crate::values::Name;
use crate::{raw, Chronicle, CountryTag, Eu4Date, LedgerKind, OwnerChange, Player, Refusal};

/// A packed record that the chronicle accepts.
///
/// Its calls lend what its head says is enough. They can be made from any thread: where its stack is too
/// small for a call, that runs on another. A copy shares the bytes.
#[derive(Clone)]
pub struct Record<'a> {
    bytes: Arc<Cow<'a, [u8]>>,
    counts: Counts,
    start: Eu4Date,
    current: Eu4Date,
    ledger: Option<LedgerKind>,
}

impl<'a> Record<'a> {
    /// Checks the bytes, lent or given, and keeps them.
    ///
    /// # Errors
    ///
    /// Refusals 1 to 9, for bytes that are no record that the chronicle accepts.
    ///
    /// ```
    /// use chronicle::{Record, Refusal};
    ///
    /// let bytes = std::fs::read("../samples/worked.atl").unwrap();
    /// let record = Record::open(&bytes)?;
    /// assert_eq!(record.start_date().to_string(), "1444-11-11");
    /// assert_eq!(Record::open(&bytes[..102]).err(), Some(Refusal::SizesDisagree));
    /// assert_eq!(Record::open(b"ATL").err(), Some(Refusal::NotARecord));
    ///
    /// // Given bytes are kept for as long as the record is.
    /// let kept: Record<'static> = Record::open(bytes)?;
    /// # Ok::<(), Refusal>(())
    /// ```
    pub fn open(bytes: impl Into<Cow<'a, [u8]>>) -> Result<Record<'a>, Refusal> {
        let bytes = bytes.into();
        deep(Depth::Check, || raw::check(&bytes))?;
        let head = bytes.first_chunk().ok_or(Refusal::NotARecord)?;
        let date = |at: usize| {
            let word = u32::from_le_bytes([head[at], head[at + 1], head[at + 2], head[at + 3]]);
            Eu4Date::from_word(word).ok_or(Refusal::BadDate)
        };
        let (counts, start, current) = (Counts::read(head), date(START_AT)?, date(CURRENT_AT)?);
        Ok(Record { bytes: Arc::new(bytes), counts, start, current, ledger: None })
    }

    /// The same, which lends nothing any more: lent bytes are copied.
    ///
    /// ```
    /// use chronicle::{Record, Refusal};
    ///
    /// fn read(path: &str) -> Result<Record<'static>, Refusal> {
    ///     let bytes = std::fs::read(path).unwrap();
    ///     Ok(Record::open(&bytes)?.into_owned())
    /// }
    ///
    /// assert_eq!(read("../samples/worked.atl")?.counts().countries, 2);
    /// # Ok::<(), Refusal>(())
    /// ```
    pub fn into_owned(self) -> Record<'static> {
        let Record { bytes, counts, start, current, ledger } = self;
        let bytes = Arc::try_unwrap(bytes).map_or_else(|shared| shared.to_vec(), Cow::into_owned);
        Record { bytes: Arc::new(Cow::Owned(bytes)), counts, start, current, ledger }
    }

    /// The same record, whose packer says what its yearly values are.
    ///
    /// ```
    /// use chronicle::{LedgerKind, Record, Refusal};
    ///
    /// let bytes = std::fs::read("../samples/isles.atl").unwrap();
    /// let record = Record::open(&bytes)?.with_ledger_kind(LedgerKind::Income);
    /// let chronicle = record.chronicle()?;
    /// let ireland = chronicle.stored_under("IRE".parse()?).unwrap();
    /// let point = chronicle.nation_ledger(ireland.number)?[2];
    /// let kind = chronicle.record().ledger_kind().map_or("value", |kind| kind.as_str());
    /// assert_eq!(format!("{kind} of {point}"), "income of TYR 1447: 5");
    /// # Ok::<(), Refusal>(())
    /// ```
    pub fn with_ledger_kind(self, kind: LedgerKind) -> Record<'a> {
        Record { ledger: Some(kind), ..self }
    }

    /// What its yearly values are, if that was said.
    ///
    /// ```
    /// use chronicle::{Record, Refusal};
    ///
    /// let bytes = std::fs::read("../samples/isles.atl").unwrap();
    /// assert_eq!(Record::open(&bytes)?.ledger_kind(), None);
    /// # Ok::<(), Refusal>(())
    /// ```
    pub fn ledger_kind(&self) -> Option<LedgerKind> {
        self.ledger
    }

    /// The bytes, as they were given.
    ///
    /// ```
    /// use chronicle::{Record, Refusal};
    ///
    /// let bytes = std::fs::read("../samples/isles.atl").unwrap();
    /// let record = Record::open(&bytes)?;
    /// assert_eq!(record.bytes(), bytes);
    /// # Ok::<(), Refusal>(())
    /// ```
    pub fn bytes(&self) -> &[u8] {
        &self.bytes
    }

    /// How many rows of each kind the record has.
    ///
    /// ```
    /// use chronicle::{Record, Refusal};
    ///
    /// let bytes = std::fs::read("../samples/isles.atl").unwrap();
    /// let counts = Record::open(&bytes)?.counts();
    /// assert_eq!((counts.countries, counts.provinces, counts.wars), (12, 18, 4));
    /// # Ok::<(), Refusal>(())
    /// ```
    pub fn counts(&self) -> Counts {
        self.counts
    }

    /// The day on which the campaign starts.
    ///
    /// ```
    /// use chronicle::{Record, Refusal};
    ///
    /// let bytes = std::fs::read("../samples/isles.atl").unwrap();
    /// let record = Record::open(&bytes)?;
    /// assert_eq!(record.start_date(), "1444-11-11".parse()?);
    /// # Ok::<(), Refusal>(())
    /// ```
    pub fn start_date(&self) -> Eu4Date {
        self.start
    }

    /// The day to which it has come.
    ///
    /// ```
    /// use chronicle::{Record, Refusal};
    ///
    /// let bytes = std::fs::read("../samples/isles.atl").unwrap();
    /// let record = Record::open(&bytes)?;
    /// assert_eq!(record.current_date(), "1550-01-01".parse()?);
    /// # Ok::<(), Refusal>(())
    /// ```
    pub fn current_date(&self) -> Eu4Date {
        self.current
    }

    /// Whether the campaign is an ironman's.
    ///
    /// ```
    /// use chronicle::{Record, Refusal};
    ///
    /// let bytes = std::fs::read("../samples/isles.atl").unwrap();
    /// let record = Record::open(&bytes)?;
    /// assert!(!record.is_ironman());
    /// # Ok::<(), Refusal>(())
    /// ```
    pub fn is_ironman(&self) -> bool {
        self.flag(0)
    }

    /// Whether the campaign is played by several.
    ///
    /// ```
    /// use chronicle::{Record, Refusal};
    ///
    /// let bytes = std::fs::read("../samples/isles.atl").unwrap();
    /// let record = Record::open(&bytes)?;
    /// assert!(!record.is_multiplayer());
    /// # Ok::<(), Refusal>(())
    /// ```
    pub fn is_multiplayer(&self) -> bool {
        self.flag(1)
    }

    fn flag(&self, bit: u32) -> bool {
        self.bytes.get(FLAGS_AT).is_some_and(|flags| flags >> bit & 1 == 1)
    }

    /// Every change of a province's owner, by date and then by province.
    ///
    /// # Errors
    ///
    /// [`Refusal::NoRoom`] if the system starts no thread; so it is wherever no other is named.
    ///
    /// ```
    /// use chronicle::{CountryTag, Eu4Date, OwnerChange, ProvinceId, Record, Refusal};
    ///
    /// let bytes = std::fs::read("../samples/worked.atl").unwrap();
    /// let changes = Record::open(&bytes)?.province_owners()?;
    /// assert_eq!(changes.len(), 2);
    /// let first = OwnerChange {
    ///     date: "1446-01-01".parse()?,
    ///     province: ProvinceId(1),
    ///     from: "ENG".parse()?,
    ///     to: "FRA".parse()?,
    /// };
    /// assert_eq!(changes[0], first);
    /// # Ok::<(), Refusal>(())
    /// ```
    pub fn province_owners(&self) -> Result<Vec<OwnerChange>, Refusal> {
        let mut out = vec![0; self.counts.enough().changes];
        let rows = deep(Depth::Changes, || raw::province_owners(&self.bytes, &mut out))?;
        Ok(out.as_chunks().0.iter().take(rows).map(OwnerChange::written).collect())
    }

    /// Which of the [`province_owners`](Self::province_owners) are of this day; of a day without any, where
    /// they would be.
    ///
    /// # Errors
    ///
    /// As [`province_owners`](Self::province_owners).
    ///
    /// ```
    /// use chronicle::{Record, Refusal};
    ///
    /// let bytes = std::fs::read("../samples/isles.atl").unwrap();
    /// let record = Record::open(&bytes)?;
    /// let fall_of_burgundy = record.events_on("1477-01-05".parse()?)?;
    /// assert_eq!(fall_of_burgundy, 5..7);
    /// assert_eq!(record.province_owners()?[fall_of_burgundy].len(), 2);
    /// assert_eq!(record.events_on("1477-01-06".parse()?)?, 7..7);
    /// # Ok::<(), Refusal>(())
    /// ```
    pub fn events_on(&self, date: Eu4Date) -> Result<Range<usize>, Refusal> {
        let mut out = [0; RUN_WORDS];
        deep(Depth::Changes, || raw::events_on(&self.bytes, date.word(), &mut out))?;
        let [first, count] = out.map(|word| word as usize);
        Ok(first..first + count)
    }

    /// The chronicle: the nations that lived, and what befell them.
    ///
    /// # Errors
    ///
    /// As [`province_owners`](Self::province_owners).
    ///
    /// ```
    /// use chronicle::{Record, Refusal};
    ///
    /// let bytes = std::fs::read("../samples/worked.atl").unwrap();
    /// let record = Record::open(&bytes)?;
    /// let chronicle = record.chronicle()?;
    /// assert_eq!((chronicle.nations().len(), chronicle.entries().len()), (2, 3));
    /// # Ok::<(), Refusal>(())
    /// ```
    pub fn chronicle(&self) -> Result<Chronicle<'a>, Refusal> {
        Chronicle::of(self.clone())
    }

    /// The chronicle, which holds the record.
    ///
    /// # Errors
    ///
    /// As [`province_owners`](Self::province_owners).
    ///
    /// ```
    /// use chronicle::{Chronicle, Record, Refusal};
    ///
    /// fn read(path: &str) -> Result<Chronicle<'static>, Refusal> {
    ///     Record::open(std::fs::read(path).unwrap())?.into_chronicle()
    /// }
    ///
    /// let chronicle = read("../samples/worked.atl")?;
    /// assert_eq!((chronicle.nations().len(), chronicle.record().counts().countries), (2, 2));
    /// # Ok::<(), Refusal>(())
    /// ```
    pub fn into_chronicle(self) -> Result<Chronicle<'a>, Refusal> {
        Chronicle::of(self)
    }

    /// Those who play, in the order of the record.
    ///
    /// # Errors
    ///
    /// As [`province_owners`](Self::province_owners).
    ///
    /// ```
    /// use chronicle::{Record, Refusal};
    ///
    /// let bytes = std::fs::read("../samples/isles.atl").unwrap();
    /// let players = Record::open(&bytes)?.players()?;
    /// let told: Vec<String> = players.iter().map(|p| format!("{} {}", p.name, p.tag)).collect();
    /// assert_eq!(told, ["Ann IRE", "Bob NED"]);
    /// # Ok::<(), Refusal>(())
    /// ```
    pub fn players(&self) -> Result<Vec<Player>, Refusal> {
        let mut out = vec![0; self.counts.enough().players];
        let rows = deep(Depth::Rows, || raw::players(&self.bytes, &mut out))?;
        let strings = self.strings();
        let player = |&[name, tag]: &[u32; PLAYER_WORDS]| Player {
            name: Name::numbered(&strings, name),
            tag: CountryTag::written(tag),
        };
        Ok(out.as_chunks().0.iter().take(rows).map(player).collect())
    }
}
