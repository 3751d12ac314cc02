//! The worked record (Rules 9.10), and a richer one of our own.

mod isles;

pub use isles::{isles, ISLES};

use crate::pack::{Campaign, Country, OwnerEvent, Province, Switch};

/// The worked record's 103 bytes, as shipped in samples/worked.atl.
pub const WORKED: &[u8; 103] = include_bytes!("../../../../../samples/worked.atl");

/// The campaign behind [`WORKED`]: England becomes Great Britain, and two provinces change hands.
///
/// ```
/// use chronicle_trial::{pack::pack, sample};
///
/// assert_eq!(pack(&sample::worked()), sample::WORKED);
/// ```
pub fn worked() -> Campaign {
    Campaign {
        start: 14441111,
        current: 14500101,
        countries: vec![
            Country {
                tag: *b"GBR",
                switches: vec![Switch { date: 14480601, from: *b"ENG" }],
                ..Country::default()
            },
            Country { tag: *b"FRA", ..Country::default() },
        ],
        provinces: vec![
            province(1, *b"ENG", 14460101, *b"FRA"),
            province(2, *b"FRA", 14470101, *b"ENG"),
        ],
        ..Campaign::default()
    }
}

fn province(id: u16, owner: [u8; 3], date: u32, tag: [u8; 3]) -> Province {
    Province { id, owner, events: vec![OwnerEvent { date, tag }] }
}
