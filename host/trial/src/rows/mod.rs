//! The rows of the answers, as values and as the 32-bit words that stand for them.

mod ledger;
mod players;

pub use ledger::{ledger_words, LedgerRow};
pub use players::{history_words, name_words, player_words, History, Player};

pub use chronicle::raw::Question;

use crate::pack::{Date, Tag};

/// A tag's word: its bytes a×65536 + b×256 + c.
///
/// ```
/// use chronicle_trial::rows::tag_word;
///
/// assert_eq!(tag_word(*b"---"), 2960685);
/// ```
pub fn tag_word([a, b, c]: Tag) -> u32 {
    u32::from_be_bytes([0, a, b, c])
}

/// The three bytes of a tag's word.
///
/// ```
/// use chronicle_trial::rows::{tag_of_word, tag_word};
///
/// assert_eq!(tag_of_word(tag_word(*b"ENG")), *b"ENG");
/// ```
pub fn tag_of_word(word: u32) -> Tag {
    let [_, a, b, c] = word.to_be_bytes();
    [a, b, c]
}

/// A province went from one tag to another.
#[derive(Clone, Copy, Debug, PartialEq, Eq)]
#[allow(missing_docs)]
pub struct Change {
    pub date: Date,
    pub id: u16,
    pub from: Tag,
    pub to: Tag,
}

impl Change {
    /// Date, id, from, to.
    ///
    /// ```
    /// use chronicle_trial::rows::Change;
    ///
    /// let change = Change { date: 14460101, id: 1, from: *b"---", to: *b"--0" };
    /// assert_eq!(change.words(), [14460101, 1, 2960685, 2960688]);
    /// ```
    pub fn words(&self) -> [u32; 4] {
        [self.date, u32::from(self.id), tag_word(self.from), tag_word(self.to)]
    }
}

/// All rows of changes, one behind the other.
///
/// ```
/// use chronicle_trial::{model, rows::change_words, sample};
///
/// assert_eq!(change_words(&model::changes(&sample::worked())).len(), 8);
/// ```
pub fn change_words(changes: &[Change]) -> Vec<u32> {
    changes.iter().flat_map(Change::words).collect()
}

/// Where the changes of a date begin among all changes, and how many they are.
#[derive(Clone, Copy, Debug, PartialEq, Eq)]
#[allow(missing_docs)]
pub struct Run {
    pub first: usize,
    pub count: usize,
}

impl Run {
    /// First, count.
    ///
    /// ```
    /// use chronicle_trial::rows::Run;
    ///
    /// assert_eq!(Run { first: 3, count: 0 }.words(), [3, 0]);
    /// ```
    pub fn words(&self) -> [u32; 2] {
        [word(self.first), word(self.count)]
    }
}

/// What befell a nation.
#[derive(Clone, Copy, Debug, PartialEq, Eq)]
pub enum Kind {
    /// It took this tag.
    Switch(Tag),
    /// It held no slot and then one.
    Appeared,
    /// It lost its last slot.
    Annexed,
}

/// What befell a nation, and when.
#[derive(Clone, Copy, Debug, PartialEq, Eq)]
#[allow(missing_docs)]
pub struct Entry {
    pub date: Date,
    pub kind: Kind,
}

impl Entry {
    /// Date, kind, target or 0.
    ///
    /// ```
    /// use chronicle_trial::rows::{Entry, Kind};
    ///
    /// assert_eq!(Entry { date: 14460101, kind: Kind::Annexed }.words(), [14460101, 2, 0]);
    /// ```
    pub fn words(&self) -> [u32; 3] {
        match self.kind {
            Kind::Switch(target) => [self.date, 0, tag_word(target)],
            Kind::Appeared => [self.date, 1, 0],
            Kind::Annexed => [self.date, 2, 0],
        }
    }
}

/// A nation with its entries.
#[derive(Clone, Debug, PartialEq, Eq)]
#[allow(missing_docs)]
pub struct Nation {
    pub initial: Tag,
    pub latest: Tag,
    pub stored: Tag,
    pub entries: Vec<Entry>,
}

/// All nation rows: initial, latest, stored, first entry, entry count.
///
/// ```
/// use chronicle_trial::{model, rows::{nation_words, tag_word}, sample};
///
/// let nations = model::chronicle(&sample::worked()).nations;
/// let [eng, gbr, fra] = [*b"ENG", *b"GBR", *b"FRA"].map(tag_word);
/// assert_eq!(nation_words(&nations), [eng, gbr, gbr, 0, 3, fra, fra, fra, 3, 0]);
/// ```
pub fn nation_words(nations: &[Nation]) -> Vec<u32> {
    let mut first = 0;
    let row = |nation: &Nation| {
        let tags = [nation.initial, nation.latest, nation.stored].map(tag_word);
        let run = [word(first), word(nation.entries.len())];
        first += nation.entries.len();
        tags.into_iter().chain(run)
    };
    nations.iter().flat_map(row).collect()
}

/// All entry rows, each nation's behind the previous nation's.
///
/// ```
/// use chronicle_trial::{model, rows::entry_words, sample};
///
/// assert_eq!(entry_words(&model::chronicle(&sample::worked()).nations).len(), 9);
/// ```
pub fn entry_words(nations: &[Nation]) -> Vec<u32> {
    nations.iter().flat_map(|nation| &nation.entries).flat_map(Entry::words).collect()
}

/// The resolver's answer: the nation's tag, and the one it is stored under.
#[derive(Clone, Copy, Debug, PartialEq, Eq)]
#[allow(missing_docs)]
pub struct Resolved {
    pub current: Tag,
    pub stored: Tag,
}

impl Resolved {
    /// Current, stored.
    ///
    /// ```
    /// use chronicle_trial::rows::Resolved;
    ///
    /// assert_eq!(Resolved { current: *b"---", stored: *b"--0" }.words(), [2960685, 2960688]);
    /// ```
    pub fn words(&self) -> [u32; 2] {
        [self.current, self.stored].map(tag_word)
    }
}

/// Who entered a war.
#[derive(Clone, Copy, Debug, PartialEq, Eq)]
#[allow(missing_docs)]
pub struct Booking {
    pub war: usize,
    pub tag: Tag,
    pub stored: Tag,
}

impl Booking {
    /// War, tag, stored.
    ///
    /// ```
    /// use chronicle_trial::rows::Booking;
    ///
    /// let booking = Booking { war: 4, tag: *b"---", stored: *b"--0" };
    /// assert_eq!(booking.words(), [4, 2960685, 2960688]);
    /// ```
    pub fn words(&self) -> [u32; 3] {
        [word(self.war), tag_word(self.tag), tag_word(self.stored)]
    }

    /// The booking that these words are.
    ///
    /// ```
    /// use chronicle_trial::rows::Booking;
    ///
    /// let booking = Booking { war: 4, tag: *b"---", stored: *b"--0" };
    /// assert_eq!(Booking::told(booking.words()), booking);
    /// ```
    pub fn told([war, tag, stored]: [u32; 3]) -> Booking {
        Booking { war: war as usize, tag: tag_of_word(tag), stored: tag_of_word(stored) }
    }
}

/// All rows of bookings, one behind the other.
///
/// ```
/// use chronicle_trial::rows::{booking_words, Booking};
///
/// let booking = Booking { war: 4, tag: *b"---", stored: *b"--0" };
/// assert_eq!(booking_words(&[booking, booking]).len(), 6);
/// ```
pub fn booking_words(bookings: &[Booking]) -> Vec<u32> {
    bookings.iter().flat_map(Booking::words).collect()
}

fn word(count: usize) -> u32 {
    u32::try_from(count).expect("a record has fewer rows than 32 bits count")
}
