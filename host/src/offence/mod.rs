//! Where in a refused record the offence stands.
//!
//! The number that refuses a record is the proved [`check`](crate::raw::check)'s; what is here goes through the
//! record once more, in plain Rust, to say in which row and what. Tests hold the two against each other.

mod fields;
mod place;
mod rows;
mod sizes;

pub use place::{Part, Place};

use std::error::Error;
use std::fmt;
use std::iter;

use crate::layout::{Counts, CURRENT_AT, HEAD, START_AT};
use crate::{Record, Refusal};

use rows::Rows;

/// What is wrong with a record, and where.
#[derive(Clone, Debug, PartialEq, Eq, Hash)]
pub struct Offence {
    /// As which a record is refused for it.
    pub refusal: Refusal,
    /// The first byte of what is wrong.
    pub offset: usize,
    /// The row that it stands in.
    pub place: Place,
    /// What is wrong there, in words.
    pub found: String,
}

impl fmt::Display for Offence {
    fn fmt(&self, f: &mut fmt::Formatter<'_>) -> fmt::Result {
        write!(f, "{}, at offset {}: {}", self.place, self.offset, self.found)
    }
}

impl Error for Offence {
    fn source(&self) -> Option<&(dyn Error + 'static)> {
        Some(&self.refusal)
    }
}

impl Record<'_> {
    /// What bytes are refused for, and where it stands; none if they are a record that is accepted.
    ///
    /// ```
    /// use chronicle::{Record, Refusal};
    ///
    /// let mut bytes = std::fs::read("../samples/isles.atl").unwrap();
    /// assert_eq!(Record::offence(&bytes), None);
    /// bytes[44 + 12] = b'!';
    /// let offence = Record::offence(&bytes).unwrap();
    /// assert_eq!((offence.refusal, offence.offset), (Refusal::BadTag, 56));
    /// assert_eq!(offence.place.to_string(), "country !BR (row 1)");
    /// ```
    pub fn offence(bytes: &[u8]) -> Option<Offence> {
        Record::offences(bytes).next()
    }

    /// Everything that can be told to be wrong with bytes, that which they are refused for first.
    ///
    /// Of bytes that do not open as a record only that is told. Where sizes disagree it is not certain where rows
    /// lie: beside all of these only the head's fields are told then. Else come the fields in file order, what
    /// stands twice, and the order of the dates.
    ///
    /// ```
    /// use chronicle::Record;
    ///
    /// let mut bytes = std::fs::read("../samples/worked.atl").unwrap();
    /// bytes[5] = 9;
    /// bytes[68..72].fill(0);
    /// let told: Vec<String> = Record::offences(&bytes).map(|found| found.place.to_string()).collect();
    /// assert_eq!(told, ["the head", "switch (row 0) of country GBR (row 0)"]);
    /// ```
    pub fn offences(bytes: &[u8]) -> Box<dyn Iterator<Item = Offence> + '_> {
        if let Some(found) = sizes::opening(bytes) {
            return Box::new(iter::once(found));
        }
        let Some(head) = bytes.first_chunk() else {
            return Box::new(iter::empty());
        };
        let counts = Counts::read(head);
        let rows = Rows::new(bytes, &counts);
        let sizes = sizes::offences(&rows, &counts);
        if !sizes.is_empty() {
            return Box::new(sizes.into_iter().chain(rows.fields(Part::Head)));
        }
        let fields = Part::ROWS.into_iter().flat_map(move |part| rows.fields(part));
        let repeated = rows.repeated_tags().chain(rows.misnumbered(counts.provinces));
        Box::new(fields.chain(repeated).chain(reversed(rows)))
    }
}

/// A current date before the start date, where both are days.
fn reversed(rows: Rows<'_>) -> Option<Offence> {
    let [start, current] = [START_AT, CURRENT_AT].map(|at| rows.date(at));
    let (start, current) = (start?, current?);
    (current < start).then(|| Offence {
        refusal: Refusal::DatesReversed,
        offset: CURRENT_AT,
        place: Place::head(HEAD),
        found: format!("the current date {current} lies before the start date {start}"),
    })
}
