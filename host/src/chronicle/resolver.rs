//! Whose a tag is.

use super::Chronicle;
use crate::deep::{deep, Depth};
use crate::raw;
use crate::rows::RESOLVED_WORDS;
use crate::values::{CountryTag, Eu4Date, TagData};
use crate::Refusal;

impl Chronicle<'_> {
    /// Where the country that went by a tag on a date is now.
    ///
    /// # Errors
    ///
    /// None that a chronicle of a record gives; the calls below likewise.
    ///
    /// ```
    /// use chronicle::{Record, Refusal, TagData};
    ///
    /// let bytes = std::fs::read("../samples/worked.atl").unwrap();
    /// let record = Record::open(&bytes)?;
    /// let chronicle = record.chronicle()?;
    /// let (eng, gbr) = ("ENG".parse()?, "GBR".parse()?);
    /// let britain = TagData { current: gbr, stored: gbr };
    /// assert_eq!(chronicle.resolve(gbr, "1448-05-31".parse()?)?, None);
    /// assert_eq!(chronicle.resolve(gbr, "1448-06-01".parse()?)?, Some(britain));
    /// assert_eq!(chronicle.resolve(eng, "1448-05-31".parse()?)?, Some(britain));
    /// # Ok::<(), Refusal>(())
    /// ```
    pub fn resolve(&self, tag: CountryTag, date: Eu4Date) -> Result<Option<TagData>, Refusal> {
        let found = self.rows().resolve(tag.word(), date.word())?;
        Ok(found.map(TagData::written))
    }

    /// Where the country that began as a tag is now.
    ///
    /// # Errors
    ///
    /// As [`resolve`](Self::resolve).
    ///
    /// ```
    /// use chronicle::{Record, Refusal};
    ///
    /// let bytes = std::fs::read("../samples/isles.atl").unwrap();
    /// let record = Record::open(&bytes)?;
    /// let found = record.chronicle()?.initial("TYR".parse()?)?;
    /// assert_eq!(found.map(|found| found.current), Some("IRE".parse()?));
    /// # Ok::<(), Refusal>(())
    /// ```
    pub fn initial(&self, tag: CountryTag) -> Result<Option<TagData>, Refusal> {
        Ok(self.rows().initial(tag.word())?.map(TagData::written))
    }

    /// The resolver set to a day: its answers have the tag worn then.
    ///
    /// ```
    /// use chronicle::{Record, Refusal, TagData};
    ///
    /// let bytes = std::fs::read("../samples/worked.atl").unwrap();
    /// let record = Record::open(&bytes)?;
    /// let chronicle = record.chronicle()?;
    /// let (eng, day) = ("ENG".parse()?, "1448-05-31".parse()?);
    /// let england = TagData { current: eng, stored: "GBR".parse()? };
    /// assert_eq!(chronicle.at(day).resolve(eng, day)?, Some(england));
    /// assert_eq!(chronicle.at(day).initial(eng)?, None);
    /// # Ok::<(), Refusal>(())
    /// ```
    pub fn at(&self, day: Eu4Date) -> TagResolverDated<'_> {
        TagResolverDated { rows: self.rows(), day }
    }

    /// The answers of [`resolve`](Self::resolve) to many questions at once, in their order: faster than
    /// one by one.
    ///
    /// # Errors
    ///
    /// [`Refusal::NoRoom`] if the system starts no thread.
    ///
    /// ```
    /// use chronicle::{Record, Refusal};
    ///
    /// let bytes = std::fs::read("../samples/worked.atl").unwrap();
    /// let record = Record::open(&bytes)?;
    /// let (gbr, day) = ("GBR".parse()?, "1448-06-01".parse()?);
    /// let found = record.chronicle()?.resolve_each(&[(gbr, day), ("SCO".parse()?, day)])?;
    /// assert_eq!(found.iter().map(Option::is_some).collect::<Vec<_>>(), [true, false]);
    /// # Ok::<(), Refusal>(())
    /// ```
    pub fn resolve_each(
        &self,
        questions: &[(CountryTag, Eu4Date)],
    ) -> Result<Vec<Option<TagData>>, Refusal> {
        let words = |&(tag, date): &(CountryTag, Eu4Date)| [tag.word(), date.word()];
        let mut out = vec![0; RESOLVED_WORDS * questions.len()];
        let questions: Vec<u32> = questions.iter().flat_map(words).collect();
        let rows = deep(Depth::Changes, || self.rows().resolve_each(&questions, &mut out))?;
        let told = |&row: &[u32; RESOLVED_WORDS]| {
            (row != [0; RESOLVED_WORDS]).then(|| TagData::written(row))
        };
        Ok(out.as_chunks().0.iter().take(rows).map(told).collect())
    }
}

/// A [`Chronicle`] asked about the tags worn on a day.
#[derive(Clone, Copy, Debug, PartialEq, Eq, Hash)]
pub struct TagResolverDated<'a> {
    rows: raw::Chronicle<'a>,
    day: Eu4Date,
}

impl TagResolverDated<'_> {
    /// Which tag the country that went by a tag on a date wore on the day.
    ///
    /// # Errors
    ///
    /// As [`Chronicle::resolve`].
    ///
    /// ```
    /// use chronicle::{Record, Refusal};
    ///
    /// let bytes = std::fs::read("../samples/isles.atl").unwrap();
    /// let record = Record::open(&bytes)?;
    /// let chronicle = record.chronicle()?;
    /// let at = chronicle.at("1461-01-01".parse()?);
    /// let found = at.resolve("TYR".parse()?, record.start_date())?;
    /// assert_eq!(found.map(|found| found.current), Some("ULS".parse()?));
    /// # Ok::<(), Refusal>(())
    /// ```
    pub fn resolve(&self, tag: CountryTag, date: Eu4Date) -> Result<Option<TagData>, Refusal> {
        let found = self.rows.resolve_at(self.day.word(), tag.word(), date.word())?;
        Ok(found.map(TagData::written))
    }

    /// Which tag the country that began as a tag had switched to by the day; none if to none.
    ///
    /// # Errors
    ///
    /// As [`Chronicle::resolve`].
    ///
    /// ```
    /// use chronicle::{Record, Refusal};
    ///
    /// let bytes = std::fs::read("../samples/isles.atl").unwrap();
    /// let record = Record::open(&bytes)?;
    /// let chronicle = record.chronicle()?;
    /// let found = chronicle.at("1461-01-01".parse()?).initial("TYR".parse()?)?;
    /// assert_eq!(found.map(|found| found.current), Some("ULS".parse()?));
    /// assert_eq!(chronicle.at(record.start_date()).initial("TYR".parse()?)?, None);
    /// # Ok::<(), Refusal>(())
    /// ```
    pub fn initial(&self, tag: CountryTag) -> Result<Option<TagData>, Refusal> {
        let found = self.rows.initial_at(self.day.word(), tag.word())?;
        Ok(found.map(TagData::written))
    }
}
