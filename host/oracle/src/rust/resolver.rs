//! The Rust's resolver.

use chronicle_trial::pack::{Date, Tag};
use chronicle_trial::rows::Resolved;
use eu4save::query::NationEvents;
use eu4save::{TagData, TagResolver};

use super::{bytes, Falsified};
use crate::save;

/// The Rust's resolver over a list of nations.
#[derive(Debug)]
pub struct Resolver {
    resolver: TagResolver,
    falsified: Option<Falsified>,
}

impl Resolver {
    /// Made from any list.
    ///
    /// ```
    /// use chronicle_oracle::rust::Resolver;
    ///
    /// assert_eq!(Resolver::of(&[]).resolve(*b"ENG", 14441111), None);
    /// ```
    pub fn of(nations: &[NationEvents]) -> Resolver {
        Resolver::with(nations, None)
    }

    pub(super) fn with(nations: &[NationEvents], falsified: Option<Falsified>) -> Resolver {
        Resolver { resolver: TagResolver::create(nations), falsified }
    }

    fn told(&self, data: Option<TagData>) -> Option<Resolved> {
        let TagData { current, stored } = data?;
        let found = Resolved { current: bytes(current), stored: bytes(stored) };
        (self.falsified != Some(Falsified::Resolver)).then_some(found)
    }

    /// Plain resolve.
    ///
    /// ```
    /// use chronicle_oracle::rust::Resolver;
    ///
    /// assert_eq!(Resolver::of(&[]).resolve(*b"ENG", 14441111), None);
    /// ```
    pub fn resolve(&self, tag: Tag, date: Date) -> Option<Resolved> {
        self.told(self.resolver.resolve(save::tag(tag), save::date(date)))
    }

    /// Plain initial.
    ///
    /// ```
    /// use chronicle_oracle::rust::Resolver;
    ///
    /// assert_eq!(Resolver::of(&[]).initial(*b"ENG"), None);
    /// ```
    pub fn initial(&self, tag: Tag) -> Option<Resolved> {
        self.told(self.resolver.initial(save::tag(tag)))
    }

    /// Resolve of the resolver set to a day.
    ///
    /// ```
    /// use chronicle_oracle::rust::Resolver;
    ///
    /// assert_eq!(Resolver::of(&[]).resolve_at(14441111, *b"ENG", 14441111), None);
    /// ```
    pub fn resolve_at(&self, day: Date, tag: Tag, date: Date) -> Option<Resolved> {
        self.told(self.resolver.at(save::date(day)).resolve(save::tag(tag), save::date(date)))
    }

    /// Initial of the resolver set to a day.
    ///
    /// ```
    /// use chronicle_oracle::rust::Resolver;
    ///
    /// assert_eq!(Resolver::of(&[]).initial_at(14441111, *b"ENG"), None);
    /// ```
    pub fn initial_at(&self, day: Date, tag: Tag) -> Option<Resolved> {
        self.told(self.resolver.at(save::date(day)).initial(save::tag(tag)))
    }
}
