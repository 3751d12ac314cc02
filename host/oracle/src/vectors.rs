//! The stored sample of the Rust's answers, which the proved program replays without Rust at hand.
//!
//! Its nations are sorted by initial. [`chronicle_trial::stored`] has the form.

use chronicle_trial::adversary::{days_of, draw, draw_bare};
use chronicle_trial::generate::Random;
use chronicle_trial::pack::{pack, Campaign, Date};
use chronicle_trial::rows::{change_words, entry_words, nation_words, tag_word};
use chronicle_trial::{model, sample};

use crate::rust::{self, Rust};

const SEED: u64 = 1444;

/// Campaigns in the list.
pub const CAMPAIGNS: usize = 400;

/// Every so many campaigns one has all sections: what else a record holds must not matter.
const ALL_SECTIONS: usize = 8;

/// Days asked about: so many on which something changes, and so many others.
const DAYS: usize = 4;

/// The campaigns of the list, each with the days asked about, the same every time: the worked
/// record's, then seeded ones.
///
/// ```
/// use chronicle_trial::sample;
/// use chronicle_oracle::vectors;
///
/// let list = vectors::list();
/// assert_eq!((list.len(), &list[0].0), (vectors::CAMPAIGNS, &sample::worked()));
/// ```
pub fn list() -> Vec<(Campaign, Vec<Date>)> {
    let mut random = Random::new(SEED);
    let mut asked = |number: usize| {
        let campaign = match number {
            0 => sample::worked(),
            _ => eventful(&mut random, number.is_multiple_of(ALL_SECTIONS)),
        };
        let days = days_asked(&mut random, &campaign);
        (campaign, days)
    };
    (0..CAMPAIGNS).map(&mut asked).collect()
}

/// The whole file: what the Rust answers of each.
///
/// # Panics
///
/// If the Rust and the model differ, which a comparison would have found.
///
/// ```
/// use chronicle_oracle::vectors;
///
/// assert!(vectors::file().len() < 400_000);
/// ```
pub fn file() -> Vec<u8> {
    let mut out = Vec::new();
    for (campaign, days) in list() {
        put(&mut out, &campaign, &days);
    }
    out
}

/// Draws until something happens to somebody, or now and then takes what comes.
fn eventful(random: &mut Random, all_sections: bool) -> Campaign {
    loop {
        let campaign = if all_sections { draw(random) } else { draw_bare(random) };
        let nations = model::chronicle(&campaign).nations;
        let happens = nations.iter().any(|nation| !nation.entries.is_empty());
        if happens || random.below(16) == 0 {
            return campaign;
        }
    }
}

fn put(out: &mut Vec<u8>, campaign: &Campaign, days: &[Date]) {
    let record = pack(campaign);
    let rust = Rust::of(campaign);
    let owners = rust.owners();
    let changes = rust::changes(&owners);
    let nations = rust.nations(&owners);
    let chronicle = model::chronicle(campaign);
    assert_eq!((&changes, &nations), (&chronicle.changes, &chronicle.nations));

    let entries = nations.iter().map(|nation| nation.entries.len()).sum();
    let [slots, countries] = [chronicle.holders.len(), chronicle.held.len()];
    let counts =
        [record.len(), changes.len(), days.len(), nations.len(), entries, slots, countries];
    put_words(out, counts.map(|count| count as u32));
    out.extend_from_slice(&record);
    put_words(out, change_words(&changes));
    for &day in days {
        let [first, count] = rust::events_on(&owners, day).words();
        put_words(out, [day, first, count]);
    }
    put_words(out, nation_words(&nations));
    put_words(out, entry_words(&nations));
    put_words(out, chronicle.holders.iter().map(|holder| holder.map_or(0, tag_word)));
    put_words(out, chronicle.held.iter().map(|&slots| slots as u32));
}

fn days_asked(random: &mut Random, campaign: &Campaign) -> Vec<Date> {
    let changes = model::changes(campaign);
    let mut days: Vec<Date> = changes.iter().map(|change| change.date).collect();
    days.dedup();
    days.truncate(DAYS);
    let others = days_of(random, campaign);
    days.extend((0..DAYS).map(|_| random.pick(&others)));
    days
}

fn put_words(out: &mut Vec<u8>, words: impl IntoIterator<Item = u32>) {
    out.extend(words.into_iter().flat_map(u32::to_le_bytes));
}
