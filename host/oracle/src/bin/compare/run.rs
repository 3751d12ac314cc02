//! One run: what it compares with, what it has met, and what it says of a difference.

use chronicle::Refusal;
use chronicle_oracle::compare::compare_with;
use chronicle_oracle::rust::{Falsified, Rust};
use chronicle_oracle::seen::Seen;
use chronicle_oracle::side_by_side::{answers, columns, told};
use chronicle_trial::pack::{pack, Campaign};
use chronicle_trial::shrink::shrink;
use chronicle_trial::trial;

const DIFFERENCE: &str = "difference.atl";

/// Days and tags asked about where there are too many to ask about all.
pub const SOME: usize = 12;

/// Of records with more bytes than this, only some days and tags are asked about.
const SMALL: usize = 20_000;

/// With more bytes than this, to compare everything at each try would take very long.
const LARGE: usize = 2_000_000;

/// Why a run does not end well.
#[derive(Debug)]
pub enum Stopped {
    /// At a difference, or where something cannot be read.
    Difference(String),
    /// It went through, and met too little.
    TooLittle(String),
}

impl From<String> for Stopped {
    fn from(message: String) -> Stopped {
        Stopped::Difference(message)
    }
}

/// What is compared with, and what was met.
pub struct Run {
    falsified: Option<Falsified>,
    pub seen: Seen,
}

impl Run {
    /// Says what is compared.
    pub fn new(falsified: Option<Falsified>) -> Run {
        println!("the Rust, the model, and of the library: {}", trial::TRIED.join(", "));
        if let Some(falsified) = falsified {
            println!("the Rust's answer is made wrong: {falsified:?}");
        }
        Run { falsified, seen: Seen::default() }
    }

    /// The Rust with a campaign loaded.
    pub fn rust(&self, campaign: &Campaign) -> Rust {
        Rust::with(campaign, self.falsified)
    }

    /// Compares a campaign; a difference is told of the smallest campaign found to show one.
    pub fn campaign(&mut self, campaign: &Campaign, seed: u64, most: usize) -> Result<(), String> {
        compare_with(self.rust(campaign), campaign, seed, most, &mut self.seen)
            .map_err(|difference| self.smallest(campaign, seed, &difference))
    }

    /// Compares what is made of bytes that are no record: the number that refuses them.
    pub fn refused(&mut self, record: &[u8], refusal: Refusal) -> Result<(), String> {
        trial::refused(record, refusal).map_err(|error| stored(record, &error))?;
        self.seen.add("record: refused", 1);
        Ok(())
    }

    /// A difference between the answers about the record itself is kept if there is one: of such, both sides
    /// can be shown.
    pub fn smallest(&self, campaign: &Campaign, seed: u64, difference: &str) -> String {
        let what = difference.lines().next().unwrap_or_default();
        eprintln!("a difference: {what}\nlooking for the smallest record that shows one");
        let differs = |campaign: &Campaign| {
            let most = asked_about(&pack(campaign));
            compare_with(self.rust(campaign), campaign, seed, most, &mut Seen::default()).err()
        };
        if self.sides(campaign).is_empty() {
            let record = pack(campaign);
            if record.len() > LARGE {
                return stored(&record, &format!("DIFFERENCE: {difference}"));
            }
            let small = shrink(campaign.clone(), |campaign| differs(campaign).is_some());
            let difference = differs(&small).unwrap_or_else(|| difference.to_string());
            let about = "About the record itself both agree:";
            let message = format!("DIFFERENCE: {difference}\n\n{about}\n{}", told(&small));
            return stored(&pack(&small), &message);
        }
        let small = shrink(campaign.clone(), |campaign| !self.sides(campaign).is_empty());
        let (sides, told) = (self.sides(&small), told(&small));
        stored(&pack(&small), &format!("DIFFERENCE in this record:\n{told}\n{sides}"))
    }

    /// What differs between the answers about the campaign's own record, side by side.
    fn sides(&self, campaign: &Campaign) -> String {
        let sections = answers(campaign, &self.rust(campaign));
        sections.map_or(String::new(), |sections| columns(&sections))
    }
}

/// How many days and tags are asked about.
pub fn asked_about(record: &[u8]) -> usize {
    if record.len() <= SMALL {
        usize::MAX
    } else {
        SOME
    }
}

/// The message, with the record in a file.
pub fn stored(record: &[u8], message: &str) -> String {
    match std::fs::write(DIFFERENCE, record) {
        Ok(()) => format!("{message}\nthe record is in {DIFFERENCE}"),
        Err(error) => format!("{message}\n{DIFFERENCE} could not be written: {error}"),
    }
}
