//! Players, the countries they played and the one they began with: the Rust, the model and the
//! library.
//!
//! Names are compared as text. What is not UTF-8 is replaced on both sides: it is neither `Player` nor
//! a tag, and neither is what replaces it.

use chronicle::raw::Chronicle;
use chronicle_trial::generate::Random;
use chronicle_trial::lists::altered_histories;
use chronicle_trial::pack::{Campaign, Tag};
use chronicle_trial::rows::{entry_words, nation_words};
use chronicle_trial::rows::{history_words, History, Nation, Player};
use chronicle_trial::told::NamedHistory;
use chronicle_trial::told::{Name, Told};
use chronicle_trial::{model, trial};
use eu4save::query::{NationEvents, PlayerHistory};

use crate::compare::{equal, rows_equal};
use crate::rust::{self, Named, Rust};
use crate::seen::Seen;

/// Altered histories that the starting country is asked of, for each list of nations.
const ALTERED: usize = 2;

/// What a comparison counts of the library's answers, so that none is missed silently.
///
/// ```
/// use chronicle_oracle::playing::looked_for;
///
/// assert!(looked_for().any(|what| what == "library: player"));
/// ```
pub fn looked_for() -> impl Iterator<Item = &'static str> {
    let players = ["library: player", "library: starting country", "library: no starting country"];
    let histories = ["library: history", "library: name of a history"];
    players.into_iter().chain(histories)
}

/// A campaign, its record, and the Rust with it loaded.
#[derive(Clone, Copy, Debug)]
#[allow(missing_docs)]
pub struct Played<'a> {
    pub campaign: &'a Campaign,
    pub record: &'a [u8],
    pub rust: &'a Rust,
}

impl Played<'_> {
    /// Holds the players of the Rust against the model's, and then the library's.
    ///
    /// ```
    /// use chronicle_trial::sample;
    /// use chronicle_oracle::{playing::Played, rust::Rust, seen::Seen};
    ///
    /// let campaign = sample::worked();
    /// let rust = Rust::of(&campaign);
    /// let played = Played { campaign: &campaign, record: sample::WORKED, rust: &rust };
    /// assert_eq!(played.players(&mut Seen::default()), Ok(()));
    /// ```
    pub fn players(self, seen: &mut Seen) -> Result<(), String> {
        let players = self.agreed_players()?;
        trial::players(self.record, &players)?;
        players_by_name(self.record, &self.rust.players())?;
        seen.add("row: player", players.len());
        seen.add("library: player", players.len());
        seen.players(self.campaign, &players);
        Ok(())
    }

    /// As [`Played::players`], of the histories by a list of nations, which is `theirs` as well, and
    /// of the starting country by these histories and by altered ones.
    ///
    /// ```
    /// use chronicle_trial::{generate::Random, sample};
    /// use chronicle_oracle::{playing::Played, rust::Rust, seen::Seen};
    ///
    /// let campaign = sample::worked();
    /// let rust = Rust::of(&campaign);
    /// let played = Played { campaign: &campaign, record: sample::WORKED, rust: &rust };
    /// let mut random = Random::new(1);
    /// let outcome = played.histories(&[], &[], &[*b"ENG"], &mut random, &mut Seen::default());
    /// assert_eq!(outcome, Ok(()));
    /// ```
    pub fn histories(
        self,
        nations: &[Nation],
        theirs: &[NationEvents],
        tags: &[Tag],
        random: &mut Random,
        seen: &mut Seen,
    ) -> Result<(), String> {
        let (histories, played) = self.agreed_histories(nations, theirs)?;
        trial::histories(self.record, nations, &histories)?;
        histories_by_name(self.record, nations, &played)?;
        seen.add("row: history", histories.len());
        seen.add("library: history", histories.len());
        let names = histories.iter().map(|history| history.names.len()).sum();
        seen.add("library: name of a history", names);
        seen.histories(self.campaign, nations, &histories);
        self.starting(nations, &histories, &played, &history_words(&histories), seen)?;
        for _ in 0..ALTERED {
            let altered = altered_histories(random, &histories, nations.len(), tags);
            let played: Vec<_> = altered.iter().map(|h| rust::player_history(h, theirs)).collect();
            let mut words = history_words(&altered);
            for row in words.as_chunks_mut::<7>().0 {
                // Nobody who asks where play began needs these.
                row[4..].fill_with(|| random.next() as u32);
            }
            self.starting(nations, &altered, &played, &words, seen)?;
        }
        Ok(())
    }

    /// The model's players, which number the names that the Rust tells.
    pub(crate) fn agreed_players(self) -> Result<Vec<Player>, String> {
        let players = model::players(self.campaign);
        let named = |player: &Player| -> Named { (self.name(player.name), player.tag) };
        let ours: Vec<Named> = players.iter().map(named).collect();
        rows_equal("players", &self.rust.players(), &ours)?;
        Ok(players)
    }

    /// The model's histories, and the Rust's, which tell the same.
    pub(crate) fn agreed_histories(
        self,
        nations: &[Nation],
        theirs: &[NationEvents],
    ) -> Result<(Vec<History>, Vec<PlayerHistory>), String> {
        let histories = model::histories(self.campaign, nations);
        let ours: Vec<_> = histories.iter().map(|history| self.told(history, nations)).collect();
        let played = self.rust.histories(theirs);
        rows_equal("histories", &played.iter().map(told_by_rust).collect::<Vec<_>>(), &ours)?;
        Ok((histories, played))
    }

    fn starting(
        self,
        nations: &[Nation],
        histories: &[History],
        theirs: &[PlayerHistory],
        words: &[u32],
        seen: &mut Seen,
    ) -> Result<(), String> {
        let start = model::starting_country(histories, nations);
        let what = || "starting country".to_string();
        equal(what, &self.rust.starting_country(theirs), &start)?;
        trial::starting(nations, words, start)?;
        seen.add("answer: starting country, not none", usize::from(start.is_some()));
        let found = start.is_some();
        seen.add("library: starting country", usize::from(found));
        seen.add("library: no starting country", usize::from(!found));
        seen.starting(nations, histories);
        Ok(())
    }

    fn name(self, number: usize) -> String {
        String::from_utf8_lossy(&self.campaign.strings[number]).into_owned()
    }

    /// A history as the Rust tells it, with its entries and names in place of their numbers.
    fn told(self, history: &History, nations: &[Nation]) -> ByName {
        let entries = history.nation.map_or(&[][..], |number| &nations[number].entries);
        let nation = Nation {
            initial: history.initial,
            latest: history.latest,
            stored: history.stored,
            entries: entries.to_vec(),
        };
        (nation, history.human, history.names.iter().map(|&name| self.name(name)).collect())
    }
}

type ByName = (Nation, bool, Vec<String>);

fn told_by_rust(history: &PlayerHistory) -> ByName {
    (rust::nation(&history.history), history.is_human, history.player_names.clone())
}

/// The wrapper's players are those that the Rust tells.
fn players_by_name(record: &[u8], theirs: &[Named]) -> Result<(), String> {
    let found =
        chronicle_trial::told::named_players(record).map_err(|refusal| refusal.to_string())?;
    let found: Vec<Named> = found.iter().map(|player| (text(player.name), player.tag)).collect();
    rows_equal("players, of the library", theirs, &found)
}

/// The wrapper's histories are those that the Rust tells.
fn histories_by_name(
    record: &[u8],
    nations: &[Nation],
    theirs: &[PlayerHistory],
) -> Result<(), String> {
    let words = [nation_words(nations), entry_words(nations)];
    let rows = Chronicle { nations: &words[0], entries: &words[1] };
    let found = rows.named_histories(record).map_err(|refusal| refusal.to_string())?;
    let told = |history: NamedHistory<'_>| -> ByName {
        let NamedHistory { initial, latest, stored, nation, human, names } = history;
        let entries = nation.map_or(vec![], |number| nations[number].entries.clone());
        let names = names.into_iter().map(text).collect();
        (Nation { initial, latest, stored, entries }, human, names)
    };
    let found: Vec<ByName> = found.into_iter().map(told).collect();
    let theirs: Vec<ByName> = theirs.iter().map(told_by_rust).collect();
    rows_equal("histories, of the library", &theirs, &found)
}

fn text(name: Name<'_>) -> String {
    name.text().map_or_else(|| String::from_utf8_lossy(name.bytes).into_owned(), str::to_string)
}
