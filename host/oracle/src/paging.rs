//! The page: in plain Rust over the Rust's own answers, by the model, and by the library.

mod limits;
mod program;

pub use limits::near_limits;
pub use program::Printed;

use std::collections::HashMap;
use std::fmt::Write;

use chronicle::Refusal;
use chronicle_trial::adversary::selections::{draw, selection, spoiled};
use chronicle_trial::generate::Random;
use chronicle_trial::pack::Tag;
use chronicle_trial::rows::Nation;
use chronicle_trial::{model, trial};
use eu4save::query::{NationEventKind, NationEvents};
use eu4save::CountryTag;

use crate::rust::Rust;
use crate::seen::Seen;

/// Selections of each campaign.
const DRAWN: usize = 2;

/// What a comparison counts of the library's pages and of the program's, so that none is missed
/// silently.
///
/// ```
/// use chronicle_oracle::paging::looked_for;
///
/// assert!(looked_for().any(|what| what == "library: page"));
/// ```
pub fn looked_for() -> impl Iterator<Item = &'static str> {
    let library = ["library: page", "library: no page"].into_iter();
    let program = ["program: page", "program: refused"].into_iter();
    library.chain(program)
}

/// A page in plain Rust: by the Rust's own changes and nations, and its own tags. The record is the one
/// of the campaign that is loaded; only its length counts.
///
/// ```
/// use chronicle_trial::sample;
/// use chronicle_oracle::{paging::page, rust::Rust};
///
/// let rust = Rust::of(&sample::worked());
/// let expected = "selected 2\nGBR ENG GBR 3 living\nFRA FRA FRA 0 living\n";
/// assert_eq!(page(&rust, sample::WORKED, b"GBR\nFRA\n"), Ok(expected.into()));
/// ```
pub fn page(rust: &Rust, record: &[u8], selection: &[u8]) -> Result<Vec<u8>, Refusal> {
    if record.len().max(selection.len()) > 65_536 {
        return Err(Refusal::NoRoom(None));
    }
    let tags = tags(selection).ok_or(Refusal::BadQuestion)?;
    let owners = rust.owners();
    let nations = rust.nation_events(&owners);
    let entries: usize = nations.iter().map(|nation| nation.events.len()).sum();
    if owners.changes.len() > 4_000 || entries > 5_000 {
        return Err(Refusal::NoRoom(None));
    }
    Ok(rust.page(text(&nations, &tags)).into_bytes())
}

fn tags(selection: &[u8]) -> Option<Vec<CountryTag>> {
    let text = std::str::from_utf8(selection).ok()?;
    let tag = |line: &str| CountryTag::create(line.strip_suffix('\n')?).ok();
    text.split_inclusive('\n').map(tag).collect()
}

fn text(nations: &[NationEvents], tags: &[CountryTag]) -> String {
    let stored: HashMap<CountryTag, &NationEvents> =
        nations.iter().map(|nation| (nation.stored, nation)).collect();
    let mut text = format!("selected {}\n", tags.len());
    for tag in tags {
        let _ = match stored.get(tag) {
            Some(nation) => writeln!(
                text,
                "{tag} {} {} {} {}",
                nation.initial,
                nation.latest,
                nation.events.len(),
                status(nation)
            ),
            None => writeln!(text, "{tag} absent"),
        };
    }
    text
}

fn status(nation: &NationEvents) -> &'static str {
    let life = |kind: &NationEventKind| match kind {
        NationEventKind::TagSwitch(_) => None,
        NationEventKind::Appeared => Some("living"),
        NationEventKind::Annexed => Some("annexed"),
    };
    nation.events.iter().rev().find_map(|event| life(&event.kind)).unwrap_or("living")
}

/// A record, and the Rust with its campaign loaded.
#[derive(Clone, Copy, Debug)]
#[allow(missing_docs)]
pub struct Paged<'a> {
    pub record: &'a [u8],
    pub rust: &'a Rust,
}

impl Paged<'_> {
    /// Holds the plain page against the model's, and then the library's: for selections drawn from
    /// these nations and other tags, and for bytes that are none.
    ///
    /// ```
    /// use chronicle_trial::{generate::Random, model, sample};
    /// use chronicle_oracle::{paging::Paged, rust::Rust, seen::Seen};
    ///
    /// let rust = Rust::of(&sample::worked());
    /// let paged = Paged { record: sample::WORKED, rust: &rust };
    /// let nations = model::chronicle(&sample::worked()).nations;
    /// let mut random = Random::new(1);
    /// let outcome = paged.drawn(&nations, &[*b"ENG"], &mut random, &mut Seen::default());
    /// assert_eq!(outcome, Ok(()));
    /// ```
    pub fn drawn(
        self,
        nations: &[Nation],
        others: &[Tag],
        random: &mut Random,
        seen: &mut Seen,
    ) -> Result<(), String> {
        for _ in 0..DRAWN {
            let tags = draw(random, nations, others);
            seen.selected(nations, others, &tags);
            self.compare(&selection(&tags), seen)?;
            self.compare(&spoiled(random, &tags), seen)?;
        }
        Ok(())
    }

    /// As [`Paged::drawn`], for one selection.
    ///
    /// ```
    /// use chronicle_trial::sample;
    /// use chronicle_oracle::{paging::Paged, rust::Rust, seen::Seen};
    ///
    /// let rust = Rust::of(&sample::worked());
    /// let paged = Paged { record: sample::WORKED, rust: &rust };
    /// assert_eq!(paged.compare(b"GBR\nFRA\n", &mut Seen::default()), Ok(()));
    /// ```
    pub fn compare(self, selection: &[u8], seen: &mut Seen) -> Result<(), String> {
        let page = self.agreed(selection)?;
        trial::page(self.record, selection, &page)?;
        seen.add(if page.is_ok() { "library: page" } else { "library: no page" }, 1);
        seen.paged(&page);
        Ok(())
    }

    /// The page that the Rust and the model agree on.
    fn agreed(self, selection: &[u8]) -> Result<Result<Vec<u8>, Refusal>, String> {
        let theirs = page(self.rust, self.record, selection);
        let ours = model::page(self.record, selection);
        if theirs == ours {
            return Ok(ours);
        }
        let text = |page: Result<Vec<u8>, Refusal>| {
            page.map(|bytes| String::from_utf8_lossy(&bytes).into_owned())
        };
        Err(format!("page\n  the Rust:  {:?}\n  the model: {:?}", text(theirs), text(ours)))
    }
}
