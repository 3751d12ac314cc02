//! What is hard about a page.

use std::collections::BTreeSet;

use chronicle::Refusal;
use chronicle_trial::pack::Tag;
use chronicle_trial::rows::{Kind, Nation};

use super::{is_switch, Seen};

impl Seen {
    /// Notes the hard cases of a selection; the others are tags that occur in the campaign.
    ///
    /// ```
    /// use chronicle_trial::{model, sample};
    /// use chronicle_oracle::seen::Seen;
    ///
    /// let nations = model::chronicle(&sample::worked()).nations;
    /// let mut seen = Seen::default();
    /// seen.selected(&nations, &[], &[*b"GBR", *b"ENG", *b"GBR"]);
    /// assert_eq!(seen.times("page: a tag twice"), 1);
    /// assert_eq!(seen.times("page: absent, another's initial"), 1);
    /// assert!(seen.never().contains(&"page: annexed"));
    /// ```
    pub fn selected(&mut self, nations: &[Nation], others: &[Tag], tags: &[Tag]) {
        let different: BTreeSet<Tag> = tags.iter().copied().collect();
        self.if_any("page: nothing selected", tags.is_empty());
        self.if_any("page: a tag twice", different.len() < tags.len());
        self.if_any("page: ten tags or more", tags.len() >= 10);
        let stored = |tag: &Tag| nations.iter().find(|nation| nation.stored == *tag);
        let told: Vec<&Nation> = different.iter().filter_map(stored).collect();
        self.told(&told);
        let absent: Vec<Tag> = different.into_iter().filter(|tag| stored(tag).is_none()).collect();
        let any = |test: &dyn Fn(Tag) -> bool| absent.iter().any(|&tag| test(tag));
        let initial = |tag| nations.iter().any(|nation| nation.initial == tag);
        let latest = |tag| nations.iter().any(|nation| nation.latest == tag);
        self.if_any("page: absent, another's initial", any(&initial));
        self.if_any("page: absent, another's latest", any(&latest));
        let occurs = |tag| others.contains(&tag) && !initial(tag) && !latest(tag);
        self.if_any("page: absent, and occurs elsewhere", any(&occurs));
        self.if_any("page: absent, and unknown", any(&|tag| !others.contains(&tag)));
    }

    fn told(&mut self, nations: &[&Nation]) {
        let any = |test: &dyn Fn(&Nation) -> bool| nations.iter().any(|nation| test(nation));
        let life = |nation: &Nation| {
            nation.entries.iter().map(|entry| entry.kind).rfind(|&kind| !is_switch(kind))
        };
        let switched = |n: &Nation| n.entries.last().is_some_and(|entry| is_switch(entry.kind));
        self.if_any("page: annexed", any(&|n| life(n) == Some(Kind::Annexed)));
        self.if_any(
            "page: annexed, a switch behind it",
            any(&|n| life(n) == Some(Kind::Annexed) && switched(n)),
        );
        self.if_any("page: risen", any(&|n| life(n) == Some(Kind::Appeared)));
        self.if_any(
            "page: living, with switches alone",
            any(&|n| life(n).is_none() && switched(n)),
        );
        self.if_any("page: living, and nothing befell it", any(&|n| n.entries.is_empty()));
        self.if_any("page: ten entries or more", any(&|n| n.entries.len() >= 10));
        self.if_any("page: initial unlike stored", any(&|n| n.initial != n.stored));
        self.if_any("page: latest unlike stored", any(&|n| n.latest != n.stored));
        self.if_any("page: initial unlike latest", any(&|n| n.initial != n.latest));
    }

    /// Notes how a page came out.
    ///
    /// ```
    /// use chronicle::Refusal;
    /// use chronicle_oracle::seen::Seen;
    ///
    /// let mut seen = Seen::default();
    /// seen.paged(&Err(Refusal::BadQuestion));
    /// assert_eq!(seen.times("page: not a selection"), 1);
    /// ```
    pub fn paged(&mut self, page: &Result<Vec<u8>, Refusal>) {
        let lines = page.as_ref().map_or(0, |page| page.iter().filter(|&&b| b == b'\n').count());
        self.add("row: line of a page", lines);
        self.if_any("page: not a selection", *page == Err(Refusal::BadQuestion));
    }
}
