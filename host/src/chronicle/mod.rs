//! The chronicle of a record, and what is asked of the two together.

mod ledger;
mod played;
mod resolver;

pub use resolver::TagResolverDated;

use std::fmt;

use crate::deep::{deep, Depth};
use crate::layout::Enough;
use crate::raw;
use crate::rows::{CHANGE_WORDS, ENTRY_WORDS, NATION_WORDS};
use crate::values::{CountryTag, Entry, Nation, OwnerChange, ProvinceId, WarParticipant};
use crate::{Record, Refusal};

/// The nations that lived in a campaign, what befell them, and who holds what at the end.
///
/// It is worked out once, by [`Record::chronicle`], and then asked. It holds its record, which is shared
/// and not copied: of a record that owns its bytes it can be kept anywhere and sent to any thread.
///
/// ```
/// use std::sync::Arc;
/// use chronicle::{Chronicle, Record, Refusal};
///
/// /// What a host keeps of an opened campaign.
/// struct Campaign {
///     record: Record<'static>,
///     chronicle: Arc<Chronicle<'static>>,
/// }
///
/// let record = Record::open(std::fs::read("../samples/isles.atl").unwrap())?;
/// let chronicle = Arc::new(record.chronicle()?);
/// let campaign = Campaign { record, chronicle };
/// let other = Arc::clone(&campaign.chronicle);
/// let nations = std::thread::spawn(move || other.nations().len()).join().unwrap();
/// assert_eq!((nations, campaign.record.counts().countries), (11, 12));
/// # Ok::<(), Refusal>(())
/// ```
#[derive(Clone, PartialEq, Eq, Hash)]
pub struct Chronicle<'a> {
    record: Record<'a>,
    nations: Vec<u32>,
    entries: Vec<u32>,
    changes: Vec<u32>,
    holders: Vec<u32>,
    held: Vec<u32>,
}

impl<'a> Chronicle<'a> {
    /// Lends what the head says is enough, and keeps what was written.
    pub(crate) fn of(record: Record<'a>) -> Result<Chronicle<'a>, Refusal> {
        let Enough { nations, entries, holders, held, changes, counts, .. } =
            record.counts().enough();
        let mut lent = [nations, entries, holders, held, changes, counts].map(|n| vec![0; n]);
        deep(Depth::Nations, || {
            let [nations, entries, holders, held, changes, counts] =
                lent.each_mut().map(|words| &mut words[..]);
            let room = raw::Room { nations, entries, holders, held, changes, counts };
            raw::nation_events(record.bytes(), room)
        })?;
        let [mut nations, mut entries, mut holders, mut held, mut changes, counts] = lent;
        let parts = [
            (&mut nations, NATION_WORDS),
            (&mut entries, ENTRY_WORDS),
            (&mut holders, 1),
            (&mut held, 1),
            (&mut changes, CHANGE_WORDS),
        ];
        for ((words, width), count) in parts.into_iter().zip(counts) {
            words.truncate(width * count as usize);
            words.shrink_to_fit();
        }
        Ok(Chronicle { record, nations, entries, changes, holders, held })
    }

    /// The record that this is the chronicle of.
    ///
    /// ```
    /// use chronicle::{Record, Refusal};
    ///
    /// let bytes = std::fs::read("../samples/isles.atl").unwrap();
    /// let record = Record::open(&bytes)?;
    /// let chronicle = record.chronicle()?;
    /// assert_eq!(chronicle.record().bytes(), bytes);
    /// # Ok::<(), Refusal>(())
    /// ```
    pub fn record(&self) -> &Record<'a> {
        &self.record
    }

    /// The same, which lends nothing any more: lent bytes are copied.
    ///
    /// ```
    /// use chronicle::{Chronicle, Record, Refusal};
    ///
    /// fn read(path: &str) -> Result<Chronicle<'static>, Refusal> {
    ///     let bytes = std::fs::read(path).unwrap();
    ///     Ok(Record::open(&bytes)?.into_chronicle()?.into_owned())
    /// }
    ///
    /// assert_eq!(read("../samples/isles.atl")?.nations().len(), 11);
    /// # Ok::<(), Refusal>(())
    /// ```
    pub fn into_owned(self) -> Chronicle<'static> {
        let Chronicle { record, nations, entries, changes, holders, held } = self;
        let record = record.into_owned();
        Chronicle { record, nations, entries, changes, holders, held }
    }

    /// The same as words, to be lent to the [`raw`] calls or kept.
    ///
    /// ```
    /// use chronicle::{Record, Refusal};
    ///
    /// let bytes = std::fs::read("../samples/worked.atl").unwrap();
    /// let record = Record::open(&bytes)?;
    /// let chronicle = record.chronicle()?;
    /// assert_eq!(chronicle.rows().nations[..5], [0x45_4e_47, 0x47_42_52, 0x47_42_52, 0, 3]);
    /// # Ok::<(), Refusal>(())
    /// ```
    pub fn rows(&self) -> raw::Chronicle<'_> {
        raw::Chronicle { nations: &self.nations, entries: &self.entries }
    }

    /// The nations, in the order of their initial tags.
    ///
    /// ```
    /// use chronicle::{EntryKind, Record, Refusal};
    ///
    /// let bytes = std::fs::read("../samples/isles.atl").unwrap();
    /// let record = Record::open(&bytes)?;
    /// let chronicle = record.chronicle()?;
    /// let scotland = chronicle.nations().find(|n| n.stored.as_str() == "SCO").unwrap();
    /// let told: Vec<String> =
    ///     scotland.entries.iter().map(|e| format!("{:?} {}", e.kind, e.date)).collect();
    /// assert_eq!(told, ["Annexed 1461-01-01", "Appeared 1475-01-01"]);
    /// # Ok::<(), Refusal>(())
    /// ```
    pub fn nations(&self) -> impl ExactSizeIterator<Item = Nation> + '_ {
        self.nations.as_chunks().0.iter().enumerate().map(|(number, row)| self.told(number, row))
    }

    /// The nation with a number, from 0.
    ///
    /// ```
    /// use chronicle::{Record, Refusal};
    ///
    /// let bytes = std::fs::read("../samples/isles.atl").unwrap();
    /// let record = Record::open(&bytes)?;
    /// let chronicle = record.chronicle()?;
    /// assert_eq!(chronicle.nation(0).map(|nation| nation.initial), Some("ARA".parse()?));
    /// assert_eq!(chronicle.nation(11), None);
    /// # Ok::<(), Refusal>(())
    /// ```
    pub fn nation(&self, number: usize) -> Option<Nation> {
        self.nations.as_chunks().0.get(number).map(|row| self.told(number, row))
    }

    /// The nation whose country is stored under a tag.
    ///
    /// ```
    /// use chronicle::{Record, Refusal};
    ///
    /// let bytes = std::fs::read("../samples/isles.atl").unwrap();
    /// let record = Record::open(&bytes)?;
    /// let chronicle = record.chronicle()?;
    /// let initial = chronicle.stored_under("IRE".parse()?).map(|nation| nation.initial);
    /// assert_eq!(initial, Some("TYR".parse()?));
    /// assert_eq!(chronicle.stored_under("TYR".parse()?), None);
    /// # Ok::<(), Refusal>(())
    /// ```
    pub fn stored_under(&self, tag: CountryTag) -> Option<Nation> {
        let rows = self.nations.as_chunks::<NATION_WORDS>().0;
        let number = rows.iter().position(|row| row[2] == tag.word())?;
        self.nation(number)
    }

    fn told(&self, number: usize, row: &[u32; NATION_WORDS]) -> Nation {
        let &[initial, latest, stored, first, count] = row;
        let [initial, latest, stored] = [initial, latest, stored].map(CountryTag::written);
        let behind = self.entries.as_chunks().0.get(first as usize..).unwrap_or(&[]);
        let entries = behind.iter().take(count as usize).map(Entry::written).collect();
        Nation { number, initial, latest, stored, entries }
    }

    /// What befell all nations, each one's behind that of the one before.
    ///
    /// ```
    /// use chronicle::{Record, Refusal};
    ///
    /// let bytes = std::fs::read("../samples/isles.atl").unwrap();
    /// let record = Record::open(&bytes)?;
    /// let chronicle = record.chronicle()?;
    /// assert_eq!(chronicle.entries().len(), 11);
    /// # Ok::<(), Refusal>(())
    /// ```
    pub fn entries(&self) -> impl ExactSizeIterator<Item = Entry> + '_ {
        self.entries.as_chunks().0.iter().map(Entry::written)
    }

    /// Every change of a province's owner, as [`Record::province_owners`] gives them.
    ///
    /// ```
    /// use chronicle::{Record, Refusal};
    ///
    /// let bytes = std::fs::read("../samples/isles.atl").unwrap();
    /// let record = Record::open(&bytes)?;
    /// let chronicle = record.chronicle()?;
    /// assert!(chronicle.owner_changes().eq(record.province_owners()?));
    /// # Ok::<(), Refusal>(())
    /// ```
    pub fn owner_changes(&self) -> impl ExactSizeIterator<Item = OwnerChange> + '_ {
        self.changes.as_chunks().0.iter().map(OwnerChange::written)
    }

    /// Who holds each province after the last change, from number 0 on.
    ///
    /// ```
    /// use chronicle::{ProvinceId, Record, Refusal};
    ///
    /// let bytes = std::fs::read("../samples/worked.atl").unwrap();
    /// let record = Record::open(&bytes)?;
    /// let holders: Vec<_> = record.chronicle()?.holders().collect();
    /// assert_eq!(holders[0], (ProvinceId(0), None));
    /// assert_eq!(holders[2], (ProvinceId(2), Some("GBR".parse()?)));
    /// # Ok::<(), Refusal>(())
    /// ```
    pub fn holders(&self) -> impl ExactSizeIterator<Item = (ProvinceId, Option<CountryTag>)> + '_ {
        let holder = |word: u32| (word != 0).then(|| CountryTag::written(word));
        self.holders
            .iter()
            .enumerate()
            .map(move |(id, &word)| (ProvinceId(id as u16), holder(word)))
    }

    /// How many provinces each country of the record holds after the last change.
    ///
    /// ```
    /// use chronicle::{Record, Refusal};
    ///
    /// let bytes = std::fs::read("../samples/worked.atl").unwrap();
    /// let record = Record::open(&bytes)?;
    /// let held: Vec<_> = record.chronicle()?.held().collect();
    /// assert_eq!(held, [("GBR".parse()?, 1), ("FRA".parse()?, 1)]);
    /// # Ok::<(), Refusal>(())
    /// ```
    pub fn held(&self) -> impl ExactSizeIterator<Item = (CountryTag, usize)> + '_ {
        self.record.countries().zip(self.held.iter().map(|&slots| slots as usize))
    }

    /// Who entered which war, when and on which side, in the order of the record.
    ///
    /// # Errors
    ///
    /// [`Refusal::NoRoom`] if the system starts no thread.
    ///
    /// ```
    /// use chronicle::{Record, Refusal, Side, WarParticipant};
    ///
    /// let bytes = std::fs::read("../samples/isles.atl").unwrap();
    /// let record = Record::open(&bytes)?;
    /// let entered = record.chronicle()?.war_participants()?;
    /// let tyrone = WarParticipant {
    ///     war: 1,
    ///     date: "1460-08-01".parse()?,
    ///     side: Side::Defender,
    ///     tag: "TYR".parse()?,
    ///     stored: "IRE".parse()?,
    /// };
    /// assert_eq!((entered.len(), entered[4]), (10, tyrone));
    /// # Ok::<(), Refusal>(())
    /// ```
    pub fn war_participants(&self) -> Result<Vec<WarParticipant>, Refusal> {
        let mut out = vec![0; self.record.counts().enough().bookings];
        let rows =
            deep(Depth::Changes, || self.rows().war_participants(self.record.bytes(), &mut out))?;
        let booked = out.as_chunks().0.iter().take(rows);
        // A booking stands for each event that adds a tag to a war, in their order.
        let told = booked.zip(self.record.war_entries());
        Ok(told.map(|(row, event)| WarParticipant::written(row, event)).collect())
    }
}

impl fmt::Debug for Chronicle<'_> {
    fn fmt(&self, f: &mut fmt::Formatter<'_>) -> fmt::Result {
        f.debug_list().entries(self.nations()).finish()
    }
}
