//! The countries that were played, and the one that the campaign was started as.

use super::Chronicle;
use crate::deep::{deep, Depth};
use crate::layout::Enough;
use crate::rows::HISTORY_WORDS;
use crate::values::{CountryTag, PlayerHistory};
use crate::Refusal;

impl Chronicle<'_> {
    /// The countries that were played, those without a player last.
    ///
    /// # Errors
    ///
    /// As [`war_participants`](Self::war_participants).
    ///
    /// ```
    /// use chronicle::{Record, Refusal};
    ///
    /// let bytes = std::fs::read("../samples/isles.atl").unwrap();
    /// let record = Record::open(&bytes)?;
    /// let histories = record.chronicle()?.player_histories()?;
    /// let initials: Vec<_> = histories.iter().map(|history| history.initial.as_str()).collect();
    /// assert_eq!(initials, ["TYR", "NED", "SCO"]);
    /// assert_eq!(histories[0].player_names[0].text(), Some("Ann"));
    /// # Ok::<(), Refusal>(())
    /// ```
    pub fn player_histories(&self) -> Result<Vec<PlayerHistory>, Refusal> {
        let [histories, names] = self.history_words()?;
        let strings = self.record.strings();
        let told = |row| PlayerHistory::written(row, &names, &strings);
        Ok(histories.as_chunks().0.iter().map(told).collect())
    }

    /// The tag of the country that the campaign was started as, if that can be told.
    ///
    /// # Errors
    ///
    /// As [`war_participants`](Self::war_participants).
    ///
    /// ```
    /// use chronicle::{Record, Refusal};
    ///
    /// let bytes = std::fs::read("../samples/worked.atl").unwrap();
    /// assert_eq!(Record::open(&bytes)?.chronicle()?.starting_country()?, None);
    /// # Ok::<(), Refusal>(())
    /// ```
    pub fn starting_country(&self) -> Result<Option<CountryTag>, Refusal> {
        let [histories, _] = self.history_words()?;
        let mut out = [0];
        let found = deep(Depth::Rows, || self.rows().starting_country(&histories, &mut out))?;
        Ok((found > 0).then(|| CountryTag::written(out[0])))
    }

    /// The words of histories and of their names.
    fn history_words(&self) -> Result<[Vec<u32>; 2], Refusal> {
        let Enough { histories, names, .. } = self.record.counts().enough();
        let [mut histories, mut names] = [histories, names].map(|words| vec![0; words]);
        let bytes = self.record.bytes();
        let counts =
            deep(Depth::Rows, || self.rows().player_histories(bytes, &mut histories, &mut names))?;
        histories.truncate(HISTORY_WORDS * counts.histories);
        names.truncate(counts.names);
        Ok([histories, names])
    }
}
