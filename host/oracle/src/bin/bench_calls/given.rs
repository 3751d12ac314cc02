//! What both are given.

use chronicle::layout::Counts;
use chronicle_oracle::rust::{nation_events, Rust};
use chronicle_trial::adversary::selections::selection;
use chronicle_trial::model;
use chronicle_trial::pack::{pack, Campaign, Date, Tag};
use chronicle_trial::rows::{entry_words, history_words, nation_words, tag_word};
use eu4save::query::{NationEvents, PlayerHistory};

use crate::records::Record;

/// A campaign as record and as the Rust's save, with what either answers before it is asked for more.
pub struct Given {
    pub record: Vec<u8>,
    pub counts: Counts,
    pub rust: Rust,
    pub theirs: Vec<NationEvents>,
    pub their_histories: Vec<PlayerHistory>,
    pub nations: Vec<u32>,
    pub entries: Vec<u32>,
    pub histories: Vec<u32>,
    /// The nation whose ledger is longest, its rows, and those of all.
    pub nation: usize,
    pub nation_rows: usize,
    pub rows: usize,
    pub questions: Vec<(Tag, Date)>,
    pub page: Option<Page>,
}

/// What a page is asked of.
pub struct Page {
    pub record: Vec<u8>,
    pub rust: Rust,
    pub selection: Vec<u8>,
}

impl Given {
    /// What all calls are given of a record, made once.
    pub fn of(record: &Record) -> Given {
        let campaign = (record.campaign)();
        let nations = model::chronicle(&campaign).nations;
        let histories = model::histories(&campaign, &nations);
        let rust = Rust::of(&campaign);
        let theirs: Vec<NationEvents> = nations.iter().map(nation_events).collect();
        let rows: Vec<usize> = theirs.iter().map(|nation| rust.ledger(nation).len()).collect();
        let longest = (0..rows.len()).max_by_key(|&nation| rows[nation]).unwrap_or(0);
        let bytes = pack(&campaign);
        Given {
            counts: Counts::read(bytes.first_chunk().expect("a head")),
            record: bytes,
            their_histories: rust.histories(&theirs),
            theirs,
            rust,
            nations: nation_words(&nations),
            entries: entry_words(&nations),
            histories: history_words(&histories),
            nation: longest,
            nation_rows: rows.get(longest).copied().unwrap_or(0),
            rows: rows.iter().sum(),
            questions: questions(&campaign, record.questions),
            page: record.page.map(|(campaign, tags)| Page::of(&campaign(), tags)),
        }
    }

    /// How large it is.
    pub fn told(&self) -> String {
        let Counts { countries, provinces, switches, owner_events, war_events, points, .. } =
            self.counts;
        format!(
            "{} bytes, {countries} countries, {provinces} provinces, {switches} switches, {owner_events} owner \
             events, {war_events} war events, {points} ledger points; {} nations with {} entries; {} questions; \
             {} ledger rows, {} of one nation",
            self.record.len(),
            self.nations.len() / 5,
            self.entries.len() / 3,
            self.questions.len(),
            self.rows,
            self.nation_rows,
        )
    }

    /// The questions as words.
    pub fn asked(&self) -> Vec<u32> {
        self.questions.iter().flat_map(|&(tag, date)| [tag_word(tag), date]).collect()
    }
}

impl Page {
    fn of(campaign: &Campaign, tags: usize) -> Page {
        let stored: Vec<Tag> = campaign.countries.iter().map(|country| country.tag).collect();
        let selected: Vec<Tag> = stored.iter().cycle().take(tags).copied().collect();
        Page { record: pack(campaign), rust: Rust::of(campaign), selection: selection(&selected) }
    }
}

/// For each country's tag by turns, on the days that owners change.
fn questions(campaign: &Campaign, count: usize) -> Vec<(Tag, Date)> {
    let tags = campaign.countries.iter().map(|country| country.tag);
    let days = campaign.provinces.iter().flat_map(|province| &province.events).map(|e| e.date);
    let days: Vec<Date> = days.collect();
    tags.cycle().zip(days.iter().copied().cycle()).take(count).collect()
}
