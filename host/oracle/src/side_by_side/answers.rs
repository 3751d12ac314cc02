//! Every answer of both, as lines of text.

use chronicle::raw::{Chronicle, TagData};
use chronicle::rows::{CHANGE_WORDS, ENTRY_WORDS, NATION_WORDS};
use chronicle::Refusal;
use chronicle_trial::adversary::selections::selection;
use chronicle_trial::adversary::tags_of;
use chronicle_trial::guarantee::Written;
use chronicle_trial::pack::{pack, Campaign, Date, Tag};
use chronicle_trial::rows::{
    history_words, tag_of_word, tag_word, Booking, Change, Entry, History, Kind, LedgerRow, Nation,
    Resolved,
};
use chronicle_trial::told::{self, Told};
use eu4save::query::{NationEvents, PlayerHistory};

use super::record::text;
use crate::paging;
use crate::rust::{self, nation_events, Named, Rust};

/// Ledgers with more rows than this are left out: campaigns that were made smaller have fewer.
const MOST_ROWS: usize = 1_000_000;

/// An answer of both, a line for each row.
#[derive(Clone, Debug, PartialEq, Eq)]
#[allow(missing_docs)]
pub struct Section {
    pub name: &'static str,
    pub theirs: Vec<String>,
    pub ours: Vec<String>,
}

/// Every answer about a campaign, of the Rust that it is loaded into and of the library.
///
/// # Errors
///
/// If the library refuses the record of the campaign.
///
/// ```
/// use chronicle_oracle::rust::{Falsified, Rust};
/// use chronicle_oracle::side_by_side::{answers, columns};
/// use chronicle_trial::sample;
///
/// let campaign = sample::worked();
/// assert_eq!(columns(&answers(&campaign, &Rust::of(&campaign)).unwrap()), "");
/// let rust = Rust::with(&campaign, Some(Falsified::Page));
/// assert!(columns(&answers(&campaign, &rust).unwrap()).contains("GBR ENG GBR 3 annexed"));
/// ```
pub fn answers(campaign: &Campaign, rust: &Rust) -> Result<Vec<Section>, Refusal> {
    let asked = Asked::of(campaign);
    let ours = of_library(campaign, &asked)?;
    let theirs = of_rust(campaign, rust, &asked, ours.ledgers.is_some()).lines(&asked);
    let ours = ours.lines(&asked);
    let section = |((name, theirs), (_, ours))| Section { name, theirs, ours };
    Ok(theirs.into_iter().zip(ours).map(section).collect())
}

/// What the resolver and the page are asked.
struct Asked {
    questions: Vec<(Tag, Date)>,
    selection: Vec<u8>,
}

impl Asked {
    /// Every tag on the first and the last day, and every country.
    fn of(campaign: &Campaign) -> Asked {
        let days = [campaign.start, campaign.current];
        let tags = tags_of(campaign);
        let stored: Vec<Tag> = campaign.countries.iter().map(|country| country.tag).collect();
        Asked {
            questions: tags.iter().flat_map(|&tag| days.map(|day| (tag, day))).collect(),
            selection: selection(&stored),
        }
    }
}

/// A played country: its three tags, whether somebody plays it, and who did.
type Played = ([Tag; 3], bool, Vec<String>);

/// One side's answers.
struct Answers {
    changes: Vec<Change>,
    nations: Vec<Nation>,
    resolved: Vec<Option<Resolved>>,
    bookings: Vec<Booking>,
    /// None where they have too many rows.
    ledgers: Option<Vec<Vec<LedgerRow>>>,
    players: Vec<Named>,
    histories: Vec<Played>,
    start: Option<Tag>,
    page: Result<Vec<u8>, Refusal>,
}

fn of_rust(campaign: &Campaign, rust: &Rust, asked: &Asked, ledgers: bool) -> Answers {
    let owners = rust.owners();
    let nations = rust.nations(&owners);
    let theirs: Vec<NationEvents> = nations.iter().map(nation_events).collect();
    let resolver = rust.resolver(&theirs);
    let histories = rust.histories(&theirs);
    let played = |history: &PlayerHistory| {
        let Nation { initial, latest, stored, .. } = rust::nation(&history.history);
        ([initial, latest, stored], history.is_human, history.player_names.clone())
    };
    Answers {
        changes: rust::changes(&owners),
        resolved: asked.questions.iter().map(|&(tag, day)| resolver.resolve(tag, day)).collect(),
        bookings: rust.bookings(&theirs),
        ledgers: ledgers.then(|| theirs.iter().map(|nation| rust.ledger(nation)).collect()),
        players: rust.players(),
        start: rust.starting_country(&histories),
        histories: histories.iter().map(played).collect(),
        page: paging::page(rust, &pack(campaign), &asked.selection),
        nations,
    }
}

fn of_library(campaign: &Campaign, asked: &Asked) -> Result<Answers, Refusal> {
    let record = pack(campaign);
    let written = Written::of(&record)?;
    let rows = Chronicle { nations: &written.nations, entries: &written.entries };
    let resolve = |&(tag, day): &(Tag, Date)| rows.resolve(tag_word(tag), day);
    let resolved = asked.questions.iter().map(resolve).collect::<Result<Vec<_>, _>>()?;
    let histories = rows.named_histories(&record)?;
    let words: Vec<History> = histories.iter().map(unnamed).collect();
    let players = told::named_players(&record)?;
    let ledgers = match rows.ledgers(&record, MOST_ROWS) {
        Err(Refusal::NoRoom(_)) => None,
        ledgers => Some(ledgers?),
    };
    Ok(Answers {
        changes: written.changes.as_chunks().0.iter().map(change).collect(),
        nations: nations(&written),
        resolved: resolved.into_iter().map(|found| found.map(resolved_to)).collect(),
        bookings: rows.bookings(&record)?,
        ledgers,
        players: players.iter().map(|player| (text(player.name.bytes), player.tag)).collect(),
        start: rows.starting(&history_words(&words))?,
        histories: histories
            .iter()
            .map(|h| {
                let names = h.names.iter().map(|name| text(name.bytes)).collect();
                ([h.initial, h.latest, h.stored], h.human, names)
            })
            .collect(),
        page: told::page(&record, &asked.selection),
    })
}

fn change(&[date, id, from, to]: &[u32; CHANGE_WORDS]) -> Change {
    Change { date, id: id as u16, from: tag_of_word(from), to: tag_of_word(to) }
}

fn resolved_to(data: TagData) -> Resolved {
    let [current, stored] = data.map(tag_of_word);
    Resolved { current, stored }
}

/// For the starting country alone, which asks for nobody's name.
fn unnamed(history: &told::NamedHistory<'_>) -> History {
    let &told::NamedHistory { initial, latest, stored, nation, human, .. } = history;
    History { initial, latest, stored, nation, human, names: vec![] }
}

fn nations(written: &Written) -> Vec<Nation> {
    let entries = written.entries.as_chunks().0;
    let entry = |&[date, kind, target]: &[u32; ENTRY_WORDS]| Entry {
        date,
        kind: match kind {
            0 => Kind::Switch(tag_of_word(target)),
            1 => Kind::Appeared,
            _ => Kind::Annexed,
        },
    };
    let nation = |&[initial, latest, stored, first, count]: &[u32; NATION_WORDS]| {
        let [initial, latest, stored] = [initial, latest, stored].map(tag_of_word);
        let own = &entries[first as usize..][..count as usize];
        Nation { initial, latest, stored, entries: own.iter().map(entry).collect() }
    };
    written.nations.as_chunks().0.iter().map(nation).collect()
}

impl Answers {
    /// Each answer's name, and a line for each of its rows.
    fn lines(&self, asked: &Asked) -> [(&'static str, Vec<String>); 9] {
        let resolved = asked.questions.iter().zip(&self.resolved);
        [
            ("owner changes", self.changes.iter().map(told_change).collect()),
            ("nations", self.nations.iter().flat_map(told_nation).collect()),
            ("resolver", resolved.map(|(&asked, found)| told_resolved(asked, *found)).collect()),
            ("war bookings", self.bookings.iter().map(told_booking).collect()),
            ("ledgers", self.told_ledgers()),
            (
                "players",
                self.players.iter().map(|(n, tag)| format!("{n}: {}", text(tag))).collect(),
            ),
            ("histories", self.histories.iter().map(told_history).collect()),
            ("starting country", vec![self.start.map_or("none".into(), |tag| text(&tag))]),
            ("page", told_page(&self.page)),
        ]
    }

    fn told_ledgers(&self) -> Vec<String> {
        let row = |nation: &Nation, row: &LedgerRow| {
            let LedgerRow { tag, year, value } = row;
            format!("of {}: {} {year} {value}", text(&nation.initial), text(tag))
        };
        let of = |(nation, rows): (&Nation, &Vec<LedgerRow>)| -> Vec<String> {
            rows.iter().map(|of| row(nation, of)).collect()
        };
        self.nations.iter().zip(self.ledgers.iter().flatten()).flat_map(of).collect()
    }
}

fn told_change(&Change { date, id, from, to }: &Change) -> String {
    format!("{date} {id} {} {}", text(&from), text(&to))
}

fn told_nation(nation: &Nation) -> Vec<String> {
    let Nation { initial, latest, stored, entries } = nation;
    let entry = |entry: &Entry| match entry.kind {
        Kind::Switch(target) => format!("  {} becomes {}", entry.date, text(&target)),
        Kind::Appeared => format!("  {} appears", entry.date),
        Kind::Annexed => format!("  {} is annexed", entry.date),
    };
    let tags = [initial, latest, stored].map(|tag| text(tag)).join(" ");
    [tags].into_iter().chain(entries.iter().map(entry)).collect()
}

fn told_resolved((tag, day): (Tag, Date), found: Option<Resolved>) -> String {
    let answer = found.map_or("none".into(), |Resolved { current, stored }| {
        format!("{}, stored under {}", text(&current), text(&stored))
    });
    format!("{} on {day}: {answer}", text(&tag))
}

fn told_booking(&Booking { war, tag, stored }: &Booking) -> String {
    format!("war {war}: {}, stored under {}", text(&tag), text(&stored))
}

fn told_history((tags, human, names): &Played) -> String {
    let human = if *human { "human" } else { "not human" };
    format!("{}, {human}: {}", tags.map(|tag| text(&tag)).join(" "), names.join(", "))
}

fn told_page(page: &Result<Vec<u8>, Refusal>) -> Vec<String> {
    match page {
        Ok(bytes) => text(bytes).lines().map(String::from).collect(),
        Err(refusal) => vec![refusal.to_string()],
    }
}
