//! One campaign, three times: the Rust, the model written from the rules, and the proved functions.
//!
//! The Rust is held against the model, row by row, and the proved functions, with all their
//! cells, against the model that was just found equal to the Rust. Holder and held cells, which
//! the Rust does not give, are held against a second count that shares nothing with the model.

use std::fmt::Debug;

use chronicle_trial::adversary::{days_of, tags_of};
use chronicle_trial::generate::Random;
use chronicle_trial::guarantee::Met;
use chronicle_trial::lists::{altered, any_nations, questions, some_of};
use chronicle_trial::model::Chronicle;
use chronicle_trial::pack::{pack, Campaign, Date, Tag};
use chronicle_trial::rows::{Change, Kind, Nation, Run};
use chronicle_trial::{guarantee, model, recount, trial};
use eu4save::query::{NationEvents, ProvinceOwners};

use crate::ledgers::Ledgers;
use crate::paging::Paged;
use crate::playing::Played;
use crate::resolving;
use crate::rust::{self, Resolver, Rust};
use crate::seen::Seen;

/// The Rust's resolver copies a nation's entries for each of its switches; a list that would make
/// more copies than this is not given to it.
const MOST_COPIES: usize = 20_000_000;

/// More pairs of nation and day than this are not looked at; small campaigns have fewer.
const MOST_PAIRS: usize = 3_000;

/// Compares everything on a campaign; at most so many days and tags are asked about. `Err` says
/// what differs.
///
/// ```
/// use chronicle_trial::sample;
/// use chronicle_oracle::{compare::compare, seen::Seen};
///
/// let mut seen = Seen::default();
/// assert_eq!(compare(&sample::worked(), 1, usize::MAX, &mut seen), Ok(()));
/// ```
pub fn compare(campaign: &Campaign, seed: u64, most: usize, seen: &mut Seen) -> Result<(), String> {
    compare_with(Rust::of(campaign), campaign, seed, most, seen)
}

/// As [`compare`], with the Rust that the campaign is loaded into.
///
/// ```
/// use chronicle_oracle::rust::{Falsified, Rust};
/// use chronicle_oracle::{compare::compare_with, seen::Seen};
/// use chronicle_trial::sample;
///
/// let campaign = sample::worked();
/// let rust = Rust::with(&campaign, Some(Falsified::Changes));
/// let difference = compare_with(rust, &campaign, 1, usize::MAX, &mut Seen::default());
/// assert!(difference.unwrap_err().starts_with("changes, row 1"));
/// ```
pub fn compare_with(
    rust: Rust,
    campaign: &Campaign,
    seed: u64,
    most: usize,
    seen: &mut Seen,
) -> Result<(), String> {
    let mut random = Random::new(seed);
    let days = days_of(&mut random, campaign);
    let days = some_of(&mut random, days, most);
    let tags = some_of(&mut random, tags_of(campaign), most);

    let owners = rust.owners();
    let chronicle = model::chronicle(campaign);
    rows_equal("changes", &rust::changes(&owners), &chronicle.changes)?;
    let runs = runs(&owners, &chronicle.changes, &days)?;
    rows_equal("nations", &rust.nations(&owners), &chronicle.nations)?;
    recounted(campaign, &chronicle)?;
    seen.note(campaign, &chronicle);
    seen.add("answer: events_on", runs.len());

    let any = any_nations(&mut random, &tags, &days);
    let altered = altered(&mut random, &chronicle.nations, &tags);
    let record = pack(campaign);
    trial::accepted(&record, &chronicle, &runs)?;
    Played { campaign, record: &record, rust: &rust }.players(seen)?;
    let paged = Paged { record: &record, rust: &rust };
    paged.drawn(&chronicle.nations, &tags, &mut random, seen)?;
    let mut asked = Asked { campaign, record, rust, random, days, tags, most, seen };
    for nations in [&chronicle.nations, &any, &altered] {
        asked.about(nations)?;
    }
    asked.guarantee()
}

/// Holder and held cells, counted again.
fn recounted(campaign: &Campaign, chronicle: &Chronicle) -> Result<(), String> {
    let holders = recount::holders(campaign, &chronicle.changes);
    if holders != chronicle.holders {
        return Err(format!("holders: {holders:?} recounted, the model {:?}", chronicle.holders));
    }
    let held = recount::held(campaign, &holders);
    if held != chronicle.held {
        return Err(format!("held: {held:?} recounted, the model {:?}", chronicle.held));
    }
    Ok(())
}

fn runs(
    owners: &ProvinceOwners,
    changes: &[Change],
    days: &[Date],
) -> Result<Vec<(Date, Run)>, String> {
    let mut runs = Vec::new();
    for &day in days {
        let run = model::events_on(changes, day);
        equal(|| format!("events_on {day}"), &rust::events_on(owners, day), &run)?;
        runs.push((day, run));
    }
    Ok(runs)
}

/// What is asked about a list of nations.
struct Asked<'a> {
    campaign: &'a Campaign,
    record: Vec<u8>,
    rust: Rust,
    random: Random,
    days: Vec<Date>,
    tags: Vec<Tag>,
    most: usize,
    seen: &'a mut Seen,
}

impl Asked<'_> {
    fn about(&mut self, nations: &[Nation]) -> Result<(), String> {
        let theirs: Vec<NationEvents> = nations.iter().map(rust::nation_events).collect();
        self.seen.list(nations);
        let small = copies(nations) <= MOST_COPIES;
        if !small {
            self.seen.add("list: too large for the Rust's resolver", 1);
        }
        self.resolver(nations, small.then(|| self.rust.resolver(&theirs)).as_ref())?;
        self.bookings(nations, small.then_some(&theirs))?;
        self.ledgers(nations, &theirs)?;
        let Asked { campaign, record, rust, random, tags, seen, .. } = self;
        Played { campaign, record, rust }.histories(nations, &theirs, tags, random, seen)
    }

    fn resolver(&mut self, nations: &[Nation], theirs: Option<&Resolver>) -> Result<(), String> {
        let asked = questions(&mut self.random, nations, &self.tags, &self.days, self.most);
        resolving::compare(nations, theirs, &asked, self.seen)
    }

    /// Without the Rust, which some lists are too large for, the model stands alone for it.
    fn bookings(
        &mut self,
        nations: &[Nation],
        theirs: Option<&Vec<NationEvents>>,
    ) -> Result<(), String> {
        let ours = model::bookings(self.campaign, nations);
        if let Some(theirs) = theirs {
            rows_equal("bookings", &self.rust.bookings(theirs), &ours)?;
            self.seen.add("row: booking", ours.len());
        }
        self.seen.wars(self.campaign, nations, &ours);
        trial::bookings(&self.record, nations, &ours)?;
        self.seen.add("library: booking", ours.len());
        Ok(())
    }

    /// What the library's own answers owe each other, without the Rust and the model.
    fn guarantee(&mut self) -> Result<(), String> {
        let Asked { campaign, record, random, .. } = self;
        let mut met = Met::default();
        guarantee::tried(record, campaign, MOST_PAIRS, random, &mut met)?;
        self.seen.guarantee(&met);
        Ok(())
    }

    fn ledgers(&mut self, nations: &[Nation], theirs: &[NationEvents]) -> Result<(), String> {
        let each = some_of(&mut self.random, (0..nations.len()).collect(), self.most);
        let Asked { campaign, record, rust, seen, .. } = self;
        Ledgers { campaign, record, rust, nations, theirs }.compare(&each, seen)
    }
}

fn copies(nations: &[Nation]) -> usize {
    let switches = |nation: &Nation| {
        nation.entries.iter().filter(|entry| matches!(entry.kind, Kind::Switch(_))).count()
    };
    nations.iter().map(|nation| switches(nation) * nation.entries.len()).sum()
}

pub(crate) fn equal<T: PartialEq + Debug>(
    what: impl Fn() -> String,
    theirs: &T,
    ours: &T,
) -> Result<(), String> {
    if theirs == ours {
        return Ok(());
    }
    Err(format!("{}\n  the Rust:  {theirs:?}\n  the model: {ours:?}", what()))
}

/// Says which row differs first.
pub(crate) fn rows_equal<T: PartialEq + Debug>(
    what: &str,
    theirs: &[T],
    ours: &[T],
) -> Result<(), String> {
    for row in 0..theirs.len().max(ours.len()) {
        equal(|| format!("{what}, row {row}"), &theirs.get(row), &ours.get(row))?;
    }
    Ok(())
}
