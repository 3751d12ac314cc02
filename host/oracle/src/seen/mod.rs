//! What a run of comparisons has met: a run that never met a hard case says little about it.

mod ledgers;
mod page;
mod players;
mod turns;
mod wars;

pub use ledgers::LEDGER_CASES;

use std::collections::{BTreeMap, BTreeSet};
use std::fmt;

use chronicle_trial::guarantee::Met;
use chronicle_trial::model::Chronicle;
use chronicle_trial::pack::{Campaign, Country, Province, Tag, NONE};
use chronicle_trial::rows::{Change, Entry, Kind, Nation};

/// How often each thing was met.
#[derive(Clone, Debug, Default)]
pub struct Seen(BTreeMap<&'static str, usize>);

impl Seen {
    /// Adds to the count of a thing.
    ///
    /// ```
    /// use chronicle_oracle::seen::Seen;
    ///
    /// let mut seen = Seen::default();
    /// seen.add("changes", 2);
    /// assert_eq!(seen.never(), [] as [&str; 0]);
    /// ```
    pub fn add(&mut self, what: &'static str, times: usize) {
        *self.0.entry(what).or_insert(0) += times;
    }

    /// What was looked for and never met.
    ///
    /// ```
    /// use chronicle_oracle::seen::Seen;
    ///
    /// let mut seen = Seen::default();
    /// seen.add("changes", 0);
    /// assert_eq!(seen.never(), ["changes"]);
    /// ```
    pub fn never(&self) -> Vec<&'static str> {
        self.0.iter().filter(|&(_, &times)| times == 0).map(|(&what, _)| what).collect()
    }

    /// How often a thing was met; 0 also for one that nobody looks for.
    ///
    /// ```
    /// use chronicle_oracle::seen::Seen;
    ///
    /// let mut seen = Seen::default();
    /// seen.add("changes", 2);
    /// assert_eq!([seen.times("changes"), seen.times("nations")], [2, 0]);
    /// ```
    pub fn times(&self, what: &str) -> usize {
        self.0.get(what).copied().unwrap_or(0)
    }

    /// Everything that is looked for, and how often it was met.
    ///
    /// ```
    /// use chronicle_oracle::seen::Seen;
    ///
    /// let mut seen = Seen::default();
    /// seen.add("changes", 2);
    /// assert!(seen.all().eq([("changes", 2)]));
    /// ```
    pub fn all(&self) -> impl Iterator<Item = (&'static str, usize)> + '_ {
        self.0.iter().map(|(&what, &times)| (what, times))
    }

    /// Adds what the guarantee met.
    ///
    /// ```
    /// use chronicle_trial::guarantee::{Met, Premise};
    /// use chronicle_oracle::seen::Seen;
    ///
    /// let (mut seen, mut met) = (Seen::default(), Met::default());
    /// met.add(Premise::Alone, true);
    /// seen.guarantee(&met);
    /// assert_eq!(seen.times("guarantee: worn alone"), 1);
    /// ```
    pub fn guarantee(&mut self, met: &Met) {
        met.all().for_each(|(what, times)| self.add(what, times));
    }

    /// Notes the hard cases of a campaign.
    ///
    /// ```
    /// use chronicle_trial::{model, sample};
    /// use chronicle_oracle::seen::Seen;
    ///
    /// let mut seen = Seen::default();
    /// let campaign = sample::worked();
    /// seen.note(&campaign, &model::chronicle(&campaign));
    /// assert!(seen.never().contains(&"campaign: --- is a nation"));
    /// ```
    pub fn note(&mut self, campaign: &Campaign, chronicle: &Chronicle) {
        self.add("campaign: all", 1);
        self.rows(chronicle);
        self.countries(campaign);
        self.provinces(campaign);
        self.course(campaign, chronicle);
        self.nations(&chronicle.nations);
        self.turns(campaign, &chronicle.changes);
    }

    /// Notes what is hard for a resolver about a list of nations.
    ///
    /// ```
    /// use chronicle_trial::{model, sample};
    /// use chronicle_oracle::seen::Seen;
    ///
    /// let mut seen = Seen::default();
    /// seen.list(&model::chronicle(&sample::worked()).nations);
    /// assert_eq!(seen.times("list: a nation without entries"), 1);
    /// assert!(seen.never().contains(&"list: entries out of date order"));
    /// ```
    pub fn list(&mut self, nations: &[Nation]) {
        let any = |test: fn(&Nation) -> bool| nations.iter().any(test);
        let initials: BTreeSet<Tag> = nations.iter().map(|nation| nation.initial).collect();
        let apart: BTreeSet<_> =
            nations.iter().map(|nation| (nation.initial, nation.stored)).collect();
        let tags = |nation: &Nation| [nation.initial, nation.latest, nation.stored];
        let known: BTreeSet<Tag> = nations.iter().flat_map(tags).collect();
        let mut targets = BTreeMap::new();
        let mut met_twice = false;
        for (number, nation) in nations.iter().enumerate() {
            for entry in &nation.entries {
                let Kind::Switch(target) = entry.kind else { continue };
                let before = targets.insert((target, entry.date), number);
                met_twice |= before.is_some_and(|before| before != number);
            }
        }
        self.if_any("list: a nation without entries", any(|n| n.entries.is_empty()));
        self.if_any(
            "list: entries out of date order",
            any(|n| !n.entries.is_sorted_by_key(|entry| entry.date)),
        );
        self.if_any("list: one initial, two stored tags", initials.len() < apart.len());
        self.if_any(
            "list: a switch to a tag that is nobody's",
            targets.keys().any(|(target, _)| !known.contains(target)),
        );
        self.if_any("list: two nations switch to a tag on one day", met_twice);
    }

    fn rows(&mut self, chronicle: &Chronicle) {
        let entries: Vec<&Entry> = chronicle.nations.iter().flat_map(|n| &n.entries).collect();
        let of = |kind: fn(&Kind) -> bool| entries.iter().filter(|e| kind(&e.kind)).count();
        self.add("row: change", chronicle.changes.len());
        self.add("row: nation", chronicle.nations.len());
        self.add("row: switch entry", of(|kind| matches!(kind, Kind::Switch(_))));
        self.add("row: Appeared entry", of(|kind| matches!(kind, Kind::Appeared)));
        self.add("row: Annexed entry", of(|kind| matches!(kind, Kind::Annexed)));
    }

    fn if_any(&mut self, what: &'static str, met: bool) {
        self.add(what, usize::from(met));
    }

    fn countries(&mut self, campaign: &Campaign) {
        let countries = &campaign.countries;
        let any = |test: fn(&Country) -> bool| countries.iter().any(test);
        let began = |c: &Country| {
            let switched = c.switches.first().map(|switch| switch.from);
            switched.or(c.previous_tags.first().copied()).unwrap_or(c.tag)
        };
        let initials: BTreeSet<_> = countries.iter().map(began).collect();
        self.if_any("campaign: initials shared", initials.len() < countries.len());
        self.if_any("campaign: --- is a country's tag", any(|c| c.tag == NONE));
        self.if_any("campaign: a chain comes back", any(comes_back));
        self.if_any(
            "campaign: switches out of date order",
            any(|c| !c.switches.is_sorted_by_key(|switch| switch.date)),
        );
        self.if_any(
            "campaign: previous tags without switches",
            any(|c| c.switches.is_empty() && !c.previous_tags.is_empty()),
        );
        self.if_any(
            "campaign: switches without previous tags",
            any(|c| !c.switches.is_empty() && c.previous_tags.is_empty()),
        );
    }

    fn provinces(&mut self, campaign: &Campaign) {
        let any = |test: fn(&Province) -> bool| campaign.provinces.iter().any(test);
        self.if_any("campaign: --- is an owner", any(|p| p.owner == NONE));
        self.if_any(
            "campaign: an event repeats the owner",
            any(|p| p.events.windows(2).any(|pair| pair[0].tag == pair[1].tag)),
        );
        self.if_any(
            "campaign: event dates fall",
            any(|p| !p.events.is_sorted_by_key(|event| event.date)),
        );
        self.if_any(
            "campaign: provinces out of order",
            !campaign.provinces.is_sorted_by_key(|province| province.id),
        );
    }

    fn course(&mut self, campaign: &Campaign, chronicle: &Chronicle) {
        let Chronicle { changes, holders, .. } = chronicle;
        let twice = |pair: &[Change]| pair[0].date == pair[1].date && pair[0].id == pair[1].id;
        self.if_any("campaign: a province changes twice on a day", changes.windows(2).any(twice));
        self.if_any("campaign: a change to ---", changes.iter().any(|c| c.to == NONE));
        let start = campaign.start;
        self.if_any("campaign: a change before the start", changes.iter().any(|c| c.date < start));
        self.if_any("campaign: a change on the start", changes.iter().any(|c| c.date == start));
        self.if_any("campaign: a change after the start", changes.iter().any(|c| c.date > start));
        let known = |tag| campaign.countries.iter().any(|country| country.tag == tag);
        self.if_any("campaign: a slot of nobody", holders.contains(&None));
        self.if_any(
            "campaign: a holder is no country",
            holders.iter().flatten().any(|&holder| !known(holder)),
        );
    }

    fn nations(&mut self, nations: &[Nation]) {
        let any = |test: fn(&Nation) -> bool| nations.iter().any(test);
        let pairs = |test: fn(Kind, Kind) -> bool| {
            let on_one_day =
                |pair: &[Entry]| pair[0].date == pair[1].date && test(pair[0].kind, pair[1].kind);
            nations.iter().any(|nation| nation.entries.windows(2).any(on_one_day))
        };
        self.if_any("campaign: --- is a nation", any(|n| n.initial == NONE));
        self.if_any(
            "campaign: --- is a target",
            any(|n| n.entries.iter().any(|entry| entry.kind == Kind::Switch(NONE))),
        );
        self.if_any(
            "campaign: annexed and back on one day",
            pairs(|one, other| [one, other] == [Kind::Annexed, Kind::Appeared]),
        );
        self.if_any(
            "campaign: a switch and a life on one day",
            pairs(|one, other| is_switch(one) != is_switch(other)),
        );
        self.if_any(
            "campaign: two switches on one day",
            pairs(|a, b| is_switch(a) && is_switch(b)),
        );
        self.if_any(
            "campaign: a later nation has entries",
            nations.iter().skip(1).any(|nation| !nation.entries.is_empty()),
        );
    }
}

fn is_switch(kind: Kind) -> bool {
    matches!(kind, Kind::Switch(_))
}

/// Whether a country gives up a tag that it gave up before, with another one in between.
fn comes_back(country: &Country) -> bool {
    let mut froms: Vec<Tag> = country.switches.iter().map(|switch| switch.from).collect();
    froms.dedup();
    froms.iter().collect::<BTreeSet<_>>().len() < froms.len()
}

/// What was compared is told before the cases that were met.
const COMPARED: [&str; 5] = ["answer", "library", "program", "record", "row"];

impl fmt::Display for Seen {
    fn fmt(&self, f: &mut fmt::Formatter<'_>) -> fmt::Result {
        let compared =
            |what: &str| what.split_once(": ").is_some_and(|(of, _)| COMPARED.contains(&of));
        for (heading, wanted) in [("compared", true), ("hard cases met", false)] {
            writeln!(f, "{:>12}  {heading}", "times")?;
            for (what, times) in self.0.iter().filter(|(what, _)| compared(what) == wanted) {
                writeln!(f, "{times:>12}  {what}")?;
            }
        }
        Ok(())
    }
}
