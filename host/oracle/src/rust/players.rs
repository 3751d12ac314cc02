//! Players, the countries they played and the one they began with.

use chronicle_trial::pack::Tag;
use chronicle_trial::rows::History;
use eu4save::query::{NationEvents, PlayerHistory};

use super::{bytes, Falsified, Rust};
use crate::save::tag;

/// A player, by the text of the name: the Rust does not number them.
pub type Named = (String, Tag);

impl Rust {
    /// The Rust's own answer, for its time.
    ///
    /// ```
    /// use chronicle_trial::sample;
    /// use chronicle_oracle::rust::Rust;
    ///
    /// assert!(Rust::of(&sample::worked()).player_list().is_empty());
    /// ```
    pub fn player_list(&self) -> Vec<eu4save::query::Player> {
        self.query.players()
    }

    /// The players by name.
    ///
    /// ```
    /// use chronicle_trial::sample;
    /// use chronicle_oracle::rust::Rust;
    ///
    /// assert!(Rust::of(&sample::worked()).players().is_empty());
    /// ```
    pub fn players(&self) -> Vec<Named> {
        let named = |player: eu4save::query::Player| (player.name, bytes(player.tag));
        let mut players = self.player_list().into_iter().map(named).collect();
        self.falsified.inspect(|falsified| falsified.players(&mut players));
        players
    }

    /// The Rust's own answer.
    ///
    /// ```
    /// use chronicle_trial::sample;
    /// use chronicle_oracle::rust::Rust;
    ///
    /// assert!(Rust::of(&sample::worked()).histories(&[]).is_empty());
    /// ```
    pub fn histories(&self, nations: &[NationEvents]) -> Vec<PlayerHistory> {
        let mut histories = self.query.player_histories(nations);
        self.falsified.inspect(|falsified| falsified.histories(&mut histories));
        histories
    }

    /// The country that play began with.
    ///
    /// ```
    /// use chronicle_trial::sample;
    /// use chronicle_oracle::rust::Rust;
    ///
    /// assert_eq!(Rust::of(&sample::worked()).starting_country(&[]), None);
    /// ```
    pub fn starting_country(&self, histories: &[PlayerHistory]) -> Option<Tag> {
        let start = self.query.starting_country(histories).map(bytes);
        start.filter(|_| self.falsified != Some(Falsified::Start))
    }
}

/// A history as the Rust has it, for what is asked about any histories; nobody's name is told.
///
/// ```
/// use chronicle_trial::rows::History;
/// use chronicle_oracle::rust::{bytes, player_history};
///
/// let [initial, latest, stored] = [*b"ENG", *b"GBR", *b"GBR"];
/// let history = History { initial, latest, stored, nation: None, human: false, names: vec![] };
/// assert_eq!(bytes(player_history(&history, &[]).history.initial), *b"ENG");
/// ```
pub fn player_history(history: &History, nations: &[NationEvents]) -> PlayerHistory {
    let events = history.nation.map_or(vec![], |number| nations[number].events.clone());
    let [initial, latest, stored] = [history.initial, history.latest, history.stored].map(tag);
    PlayerHistory {
        history: NationEvents { initial, latest, stored, events },
        is_human: history.human,
        player_names: vec![],
    }
}
