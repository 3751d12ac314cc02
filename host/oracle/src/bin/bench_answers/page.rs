//! `page`, against a page in plain Rust over the Rust's own changes and nations; and against our
//! `nation_events` on the same record, which is most of it.

use std::hint::black_box;

use chronicle_oracle::paging::page;
use chronicle_oracle::rust::Rust;
use chronicle_trial::adversary::selections::selection;
use chronicle_trial::extremes::pages::{one_slot, to_and_fro, whole_page};
use chronicle_trial::pack::{pack, Campaign, Tag};
use chronicle_trial::sample::{isles, worked};

use crate::race::{self, heading, spent, Timed};

/// As many tags as there may be.
const MOST_TAGS: usize = 16_384;

/// Small records, and as much as a page holds.
pub fn all(rounds: usize) {
    heading("page: small records; rows are bytes of the page");
    race("worked record, its two nations", &worked(), 2, rounds);
    race("sample isles, its twelve countries", &isles(), 12, rounds);
    heading("page: records of 65,536 bytes, 16,384 tags; rows are bytes of the page");
    let whole = [300, 600, 1_200, 2_000].map(|countries| (countries, whole_page(countries)));
    for (countries, campaign) in &whole {
        race(&format!("{countries} countries"), campaign, MOST_TAGS, rounds);
    }
    heading("page: the limits of changes and of entries, 16,384 tags; rows are bytes of the page");
    race("4,000 changes", &to_and_fro(4_000), MOST_TAGS, rounds);
    race("5,000 entries of two nations", &one_slot(2_500), MOST_TAGS, rounds);
    println!("\npage beside nation_events, both ours; milliseconds: best, median, of each");
    for (countries, campaign) in &whole {
        library::beside(&format!("{countries} countries"), campaign, rounds);
    }
    library::beside("worked record", &worked(), rounds);
}

/// So many tags of countries, the last country first.
fn tags(campaign: &Campaign, count: usize) -> Vec<u8> {
    let stored: Vec<Tag> = campaign.countries.iter().rev().map(|country| country.tag).collect();
    selection(&stored.iter().cycle().take(count).copied().collect::<Vec<_>>())
}

fn race(name: &str, campaign: &Campaign, count: usize, rounds: usize) {
    let (rust, record, tags) = (Rust::of(campaign), pack(campaign), tags(campaign, count));
    let theirs = &mut || {
        let before = spent();
        let page = black_box(page(black_box(&rust), &record, &tags));
        let time = spent() - before;
        Some((page.expect("it is no more than a page holds").len(), time))
    };
    race::race(name, count, rounds, theirs, &mut || library::ours(&record, &tags));
}

mod library {
    use super::*;
    use chronicle::raw::write_page;
    use chronicle_oracle::timed::Times;
    use std::time::Duration;

    /// The bytes have been written before, as those of a host that lends them again.
    pub fn ours(record: &[u8], tags: &[u8]) -> Option<Timed> {
        let mut out = vec![1; chronicle::raw::LONGEST_PAGE];
        let before = spent();
        let written = black_box(write_page(black_box(record), tags, &mut out));
        let time = spent() - before;
        Some((written.expect("it is no more than a page holds"), time))
    }

    /// A page beside the nations that it is written from.
    pub fn beside(name: &str, campaign: &Campaign, rounds: usize) {
        let record = pack(campaign);
        let tags = tags(campaign, if record.len() < 1_000 { 2 } else { MOST_TAGS });
        let mut times: [Vec<Duration>; 2] = [vec![], vec![]];
        for _ in 0..rounds.max(1) {
            times[0].push(crate::nations::ours(&record, campaign).expect("it is there").1);
            times[1].push(ours(&record, &tags).expect("it is there").1);
        }
        let [nations, page] = times.map(|times| Times::of(times).expect("one round at least"));
        println!(
            "{name:<32} nation_events {:>9.4} {:>9.4} | page {:>9.4} {:>9.4} | more by {:>9.4} {:>9.4}",
            nations.best,
            nations.median,
            page.best,
            page.median,
            page.best - nations.best,
            page.median - nations.median
        );
    }
}
