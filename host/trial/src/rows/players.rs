//! Players, and the countries that they played.

use super::{tag_of_word, tag_word, word};
use crate::pack::Tag;

/// A player: the string number of the name, and the tag played.
#[derive(Clone, Copy, Debug, PartialEq, Eq)]
#[allow(missing_docs)]
pub struct Player {
    pub name: usize,
    pub tag: Tag,
}

impl Player {
    /// Name, tag.
    ///
    /// ```
    /// use chronicle_trial::rows::Player;
    ///
    /// assert_eq!(Player { name: 4, tag: *b"---" }.words(), [4, 2960685]);
    /// ```
    pub fn words(&self) -> [u32; 2] {
        [word(self.name), tag_word(self.tag)]
    }

    /// The player that these words are.
    ///
    /// ```
    /// use chronicle_trial::rows::Player;
    ///
    /// let player = Player { name: 4, tag: *b"---" };
    /// assert_eq!(Player::told(player.words()), player);
    /// ```
    pub fn told([name, tag]: [u32; 2]) -> Player {
        Player { name: name as usize, tag: tag_of_word(tag) }
    }
}

/// All rows of players, one behind the other.
///
/// ```
/// use chronicle_trial::rows::{player_words, Player};
///
/// let player = Player { name: 4, tag: *b"---" };
/// assert_eq!(player_words(&[player, player]).len(), 4);
/// ```
pub fn player_words(players: &[Player]) -> Vec<u32> {
    players.iter().flat_map(Player::words).collect()
}

/// A country that had a player, with the string numbers of the names it has now.
#[derive(Clone, Debug, PartialEq, Eq)]
#[allow(missing_docs)]
pub struct History {
    pub initial: Tag,
    pub latest: Tag,
    pub stored: Tag,
    /// Number of the nation in the list, if it is listed.
    pub nation: Option<usize>,
    pub human: bool,
    pub names: Vec<usize>,
}

impl History {
    /// Initial, latest, stored, nation from 1 or 0, human, first name, names: so many names stand
    /// before its own.
    ///
    /// ```
    /// use chronicle_trial::rows::History;
    ///
    /// let [initial, latest, stored] = [*b"---", *b"--0", *b"--1"];
    /// let names = vec![4, 8];
    /// let history = History { initial, latest, stored, nation: Some(0), human: true, names };
    /// assert_eq!(history.words(7), [2960685, 2960688, 2960689, 1, 1, 7, 2]);
    /// ```
    pub fn words(&self, before: usize) -> [u32; 7] {
        let [initial, latest, stored] = [self.initial, self.latest, self.stored].map(tag_word);
        let nation = self.nation.map_or(0, |number| word(number + 1));
        let run = [word(before), word(self.names.len())];
        [initial, latest, stored, nation, u32::from(self.human), run[0], run[1]]
    }

    /// The history that these words are, its names being among these.
    ///
    /// # Panics
    ///
    /// If they are not.
    ///
    /// ```
    /// use chronicle_trial::rows::History;
    ///
    /// let history = History::told([2960685, 2960688, 2960689, 3, 0, 1, 1], &[4, 8]);
    /// assert_eq!((history.initial, history.nation), (*b"---", Some(2)));
    /// assert_eq!((history.human, history.names), (false, vec![8]));
    /// ```
    pub fn told(row: [u32; 7], names: &[u32]) -> History {
        let [initial, latest, stored, nation, human, first, count] = row;
        let [initial, latest, stored] = [initial, latest, stored].map(tag_of_word);
        let own = &names[first as usize..][..count as usize];
        History {
            initial,
            latest,
            stored,
            nation: (nation as usize).checked_sub(1),
            human: human != 0,
            names: own.iter().map(|&name| name as usize).collect(),
        }
    }
}

/// All rows of histories, one behind the other.
///
/// ```
/// use chronicle_trial::{model, pack::WAS_PLAYER, rows::history_words, sample};
///
/// let mut campaign = sample::worked();
/// campaign.countries.iter_mut().for_each(|country| country.flags = WAS_PLAYER);
/// let histories = model::histories(&campaign, &[]);
/// assert_eq!(history_words(&histories).len(), 14);
/// ```
pub fn history_words(histories: &[History]) -> Vec<u32> {
    let mut before = 0;
    let row = |history: &History| {
        let words = history.words(before);
        before += history.names.len();
        words
    };
    histories.iter().flat_map(row).collect()
}

/// The list of names that the rows point into.
///
/// ```
/// use chronicle_trial::{model, rows::name_words, sample};
///
/// assert!(name_words(&model::histories(&sample::worked(), &[])).is_empty());
/// ```
pub fn name_words(histories: &[History]) -> Vec<u32> {
    histories.iter().flat_map(|history| &history.names).map(|&name| word(name)).collect()
}
