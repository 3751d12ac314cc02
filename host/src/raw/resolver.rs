//! The resolver: each call is lent nation words and entry words, as
//! [`nation_events`](super::nation_events) writes them or as anybody else does.

use super::{c, counted};
use crate::rows::RESOLVED_WORDS;
use crate::Refusal;

/// The words of a chronicle: five for a nation, three for an entry.
#[derive(Clone, Copy, Debug, PartialEq, Eq, Hash)]
pub struct Chronicle<'a> {
    /// Initial, latest, stored, first entry, entry count.
    pub nations: &'a [u32],
    /// The day, what befell (a switch is 0, Appeared 1, Annexed 2), and a switch's target, else 0.
    pub entries: &'a [u32],
}

/// What a resolver is asked, tag and dates in words: anybody may ask with any.
#[derive(Clone, Copy, Debug, PartialEq, Eq, PartialOrd, Ord, Hash)]
pub enum Question {
    /// Who went by the tag on the date?
    Resolve {
        /// The tag,
        tag: u32,
        /// and the date.
        date: u32,
    },
    /// Who began as the tag?
    Initial {
        /// The tag.
        tag: u32,
    },
    /// As `Resolve`; the answer has the tag worn on the day.
    ResolveAt {
        /// The day,
        day: u32,
        /// the tag,
        tag: u32,
        /// and the date.
        date: u32,
    },
    /// As `Initial`; the answer has the tag worn on the day.
    InitialAt {
        /// The day,
        day: u32,
        /// and the tag.
        tag: u32,
    },
}

/// A tag's word, and the word of the tag it is stored under.
pub type TagData = [u32; RESOLVED_WORDS];

impl Chronicle<'_> {
    /// Where the country that went by a tag on a date is now.
    ///
    /// # Panics
    ///
    /// If the library answers a number that is neither 0, 2 nor a refusal's.
    ///
    /// ```
    /// use chronicle::{raw::Chronicle, Refusal};
    ///
    /// let (eng, gbr) = (0x45_4e_47, 0x47_42_52);
    /// let nations = [eng, gbr, gbr, 0, 1];
    /// let entries = [14480601, 0, gbr];
    /// let rows = Chronicle { nations: &nations, entries: &entries };
    /// assert_eq!(rows.resolve(gbr, 14480531), Ok(None));
    /// assert_eq!(rows.resolve(gbr, 14480601), Ok(Some([gbr, gbr])));
    /// assert_eq!(rows.resolve_at(14480531, eng, 14480531), Ok(Some([eng, gbr])));
    /// assert_eq!(rows.initial(eng), Ok(Some([gbr, gbr])));
    /// assert_eq!(rows.initial_at(14480531, eng), Ok(None));
    /// assert_eq!(rows.resolve(gbr, 14440229), Err(Refusal::BadQuestion));
    /// let torn = Chronicle { nations: &nations[..4], entries: &entries };
    /// assert_eq!(torn.resolve(gbr, 14440229), Err(Refusal::NotWellShaped));
    /// ```
    pub fn resolve(self, tag: u32, date: u32) -> Result<Option<TagData>, Refusal> {
        self.data(Question::Resolve { tag, date })
    }

    /// Where the country that began as a tag is now.
    ///
    /// # Panics
    ///
    /// As [`Chronicle::resolve`].
    ///
    /// ```
    /// use chronicle::raw::Chronicle;
    ///
    /// let (eng, gbr) = (0x45_4e_47, 0x47_42_52);
    /// let rows = Chronicle { nations: &[eng, gbr, gbr, 0, 1], entries: &[14480601, 0, gbr] };
    /// assert_eq!(rows.initial(eng), Ok(Some([gbr, gbr])));
    /// ```
    pub fn initial(self, tag: u32) -> Result<Option<TagData>, Refusal> {
        self.data(Question::Initial { tag })
    }

    /// Which tag the country that went by a tag on a date wore on a day.
    ///
    /// # Panics
    ///
    /// As [`Chronicle::resolve`].
    ///
    /// ```
    /// use chronicle::raw::Chronicle;
    ///
    /// let (eng, gbr) = (0x45_4e_47, 0x47_42_52);
    /// let rows = Chronicle { nations: &[eng, gbr, gbr, 0, 1], entries: &[14480601, 0, gbr] };
    /// assert_eq!(rows.resolve_at(14480531, eng, 14480531), Ok(Some([eng, gbr])));
    /// ```
    pub fn resolve_at(self, day: u32, tag: u32, date: u32) -> Result<Option<TagData>, Refusal> {
        self.data(Question::ResolveAt { day, tag, date })
    }

    /// Which tag the country that began as a tag had switched to by a day.
    ///
    /// # Panics
    ///
    /// As [`Chronicle::resolve`].
    ///
    /// ```
    /// use chronicle::raw::Chronicle;
    ///
    /// let (eng, gbr) = (0x45_4e_47, 0x47_42_52);
    /// let rows = Chronicle { nations: &[eng, gbr, gbr, 0, 1], entries: &[14480601, 0, gbr] };
    /// assert_eq!(rows.initial_at(14480531, eng), Ok(None));
    /// ```
    pub fn initial_at(self, day: u32, tag: u32) -> Result<Option<TagData>, Refusal> {
        self.data(Question::InitialAt { day, tag })
    }

    /// Answers a question into a slice: two words are written and counted if somebody is found, none
    /// otherwise. Only who is found needs the room.
    ///
    /// # Panics
    ///
    /// If the library answers a number that is neither a count nor a refusal's.
    ///
    /// ```
    /// use chronicle::raw::{Chronicle, Question};
    /// use chronicle::Refusal;
    ///
    /// let rows = Chronicle { nations: &[0x45_4e_47, 0x47_42_52, 0x47_42_52, 0, 0], entries: &[] };
    /// let [eng, fra] = [0x45_4e_47, 0x46_52_41].map(|tag| Question::Initial { tag });
    /// let mut out = [7; 3];
    /// assert_eq!(rows.ask(eng, &mut out), Ok(2));
    /// assert_eq!(out, [0x47_42_52, 0x47_42_52, 7]);
    /// assert_eq!(rows.ask(eng, &mut out[..1]), Err(Refusal::NoRoom(None)));
    /// assert_eq!(rows.ask(fra, &mut []), Ok(0));
    /// ```
    pub fn ask(self, question: Question, out: &mut [u32]) -> Result<usize, Refusal> {
        let (n, nl) = (self.nations.as_ptr(), self.nations.len());
        let (e, el) = (self.entries.as_ptr(), self.entries.len());
        let (out, room) = (out.as_mut_ptr(), out.len());
        // SAFETY: each pointer comes with the length of the live slice it belongs to; a function
        // reads the two, writes within the third, and keeps none.
        let answer = unsafe {
            match question {
                Question::Resolve { tag, date } => {
                    c::chronicle_resolver_resolve(n, nl, e, el, tag, date, out, room)
                }
                Question::Initial { tag } => {
                    c::chronicle_resolver_initial(n, nl, e, el, tag, out, room)
                }
                Question::ResolveAt { day, tag, date } => {
                    c::chronicle_resolver_resolve_at(n, nl, e, el, day, tag, date, out, room)
                }
                Question::InitialAt { day, tag } => {
                    c::chronicle_resolver_initial_at(n, nl, e, el, day, tag, out, room)
                }
            }
        };
        counted("the resolver", answer)
    }

    /// Answers questions of two words, tag and date, by two words each, 0 and 0 for none; says how
    /// many there are. Needs 1 MiB of stack.
    ///
    /// # Panics
    ///
    /// If the library answers a number that is neither a count nor a refusal's.
    ///
    /// ```
    /// use chronicle::raw::Chronicle;
    ///
    /// let rows = Chronicle { nations: &[0x45_4e_47, 0x47_42_52, 0x47_42_52, 0, 0], entries: &[] };
    /// let mut out = [7; 5];
    /// assert_eq!(rows.resolve_each(&[0x45_4e_47, 14440101, 0x46_52_41, 14440101], &mut out), Ok(2));
    /// assert_eq!(out, [0x47_42_52, 0x47_42_52, 0, 0, 7]);
    /// ```
    pub fn resolve_each(self, questions: &[u32], out: &mut [u32]) -> Result<usize, Refusal> {
        // SAFETY: each pointer comes with the length of the live slice it belongs to; the function
        // reads three, writes within the fourth, and keeps none.
        let answer = unsafe {
            c::chronicle_resolver_resolve_each(
                self.nations.as_ptr(),
                self.nations.len(),
                self.entries.as_ptr(),
                self.entries.len(),
                questions.as_ptr(),
                questions.len(),
                out.as_mut_ptr(),
                out.len(),
            )
        };
        counted("resolver_resolve_each", answer)
    }

    fn data(self, question: Question) -> Result<Option<TagData>, Refusal> {
        let mut out = [0; RESOLVED_WORDS];
        match self.ask(question, &mut out)? {
            0 => Ok(None),
            RESOLVED_WORDS => Ok(Some(out)),
            words => panic!("{question:?} is answered by {words} words"),
        }
    }
}
