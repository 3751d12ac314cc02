//! How large drawn campaigns may become.

use chronicle::layout::Counts;

/// How large the drawn campaigns may become, and how often their rows meet.
#[derive(Clone, Copy, Debug)]
pub struct Knobs {
    /// Most countries, provinces, wars, ledger names and strings.
    pub rows: Counts,
    /// Most previous tags of one country.
    pub previous_tags: usize,
    /// Most switches of one country.
    pub switches: usize,
    /// Most events of one province.
    pub owner_events: usize,
    /// Most events of one war.
    pub war_events: usize,
    /// Most points of one ledger name.
    pub points: usize,
    /// Longest string.
    pub string_length: usize,
    /// Tags to choose from beside the countries' own: few tags meet often.
    pub other_tags: usize,
    /// Dates to choose from: few dates give ties.
    pub dates: usize,
}

impl Knobs {
    /// Small campaigns, of some hundred bytes, with all sections.
    ///
    /// ```
    /// use chronicle_trial::{generate::{campaign, Knobs, Random}, pack::pack, reference};
    ///
    /// let record = pack(&campaign(&mut Random::new(1), &Knobs::small()));
    /// assert_eq!(reference::refusal_number(&record), 0);
    /// ```
    pub fn small() -> Knobs {
        Knobs {
            rows: Counts {
                countries: 4,
                provinces: 4,
                wars: 3,
                ledger_names: 3,
                strings: 4,
                ..Counts::default()
            },
            previous_tags: 2,
            switches: 3,
            owner_events: 3,
            war_events: 3,
            points: 4,
            string_length: 6,
            other_tags: 6,
            dates: 40,
        }
    }

    /// Few tags, `---` among them, and few dates: ties, loops and meetings everywhere.
    ///
    /// ```
    /// use chronicle_trial::{generate::{campaign, Knobs, Random}, pack::pack, reference};
    ///
    /// let record = pack(&campaign(&mut Random::new(2), &Knobs::adversarial()));
    /// assert_eq!(reference::refusal_number(&record), 0);
    /// ```
    pub fn adversarial() -> Knobs {
        Knobs {
            rows: Counts {
                countries: 5,
                provinces: 5,
                wars: 2,
                ledger_names: 4,
                strings: 7,
                ..Counts::default()
            },
            previous_tags: 3,
            switches: 4,
            owner_events: 5,
            war_events: 4,
            points: 5,
            string_length: 3,
            other_tags: 1,
            dates: 4,
        }
    }
}
