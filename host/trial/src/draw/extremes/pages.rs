//! Campaigns as large as a page holds, and larger by one.

use crate::generate::{counts_of, sized};
use crate::pack::{pack, Campaign, Country, OwnerEvent, Province, Switch, Tag};

use super::nth_day;

/// The longest string there can be, with its length.
const WHOLE_STRING: usize = 256;

const ENG: Tag = *b"ENG";
const FRA: Tag = *b"FRA";

/// One province goes to and fro so many times; both nations have another one, so that nothing
/// befalls them.
///
/// ```
/// use chronicle_trial::{extremes::pages::to_and_fro, model::chronicle};
///
/// let told = chronicle(&to_and_fro(5));
/// assert_eq!(told.changes.len(), 5);
/// assert!(told.nations.iter().all(|nation| nation.entries.is_empty()));
/// ```
pub fn to_and_fro(changes: usize) -> Campaign {
    let safe = |id, owner| Province { id, owner, events: vec![] };
    let mut campaign = one_slot(changes);
    campaign.provinces.extend([safe(2, ENG), safe(3, FRA)]);
    campaign
}

/// The same province is all that the two nations ever have: each time one dies, and the other rises.
///
/// ```
/// use chronicle_trial::{extremes::pages::one_slot, model::chronicle};
///
/// let told = chronicle(&one_slot(5));
/// assert_eq!(told.nations.iter().map(|nation| nation.entries.len()).sum::<usize>(), 10);
/// ```
pub fn one_slot(changes: usize) -> Campaign {
    let owners = [ENG, FRA].into_iter().cycle();
    let event = |(number, tag)| OwnerEvent { date: nth_day(number), tag };
    Campaign {
        start: 14441111,
        current: 99991231,
        countries: [ENG, FRA].map(|tag| Country { tag, ..Country::default() }).to_vec(),
        provinces: vec![Province {
            id: 1,
            owner: FRA,
            events: owners.take(changes).enumerate().map(event).collect(),
        }],
        ..Campaign::default()
    }
}

/// A campaign in which England switches so many times besides.
///
/// ```
/// use chronicle_trial::{extremes::pages::{one_slot, switched}, model::chronicle};
///
/// let told = chronicle(&switched(one_slot(0), 7));
/// assert_eq!(told.nations.len(), 1);
/// assert_eq!(chronicle(&switched(one_slot(1), 7)).nations[0].entries.len(), 8);
/// ```
pub fn switched(mut campaign: Campaign, switches: usize) -> Campaign {
    let switch = |number| Switch { date: nth_day(number), from: ENG };
    campaign.countries[0].switches = (0..switches).map(switch).collect();
    campaign
}

/// The same campaign with strings that make its record exactly so long; its own are lost.
///
/// # Panics
///
/// If the record is longer than that without them.
///
/// ```
/// use chronicle_trial::{extremes::pages::padded, pack::pack, sample};
///
/// for bytes in [103, 104, 358, 359, 360, 65_536] {
///     assert_eq!(pack(&padded(sample::worked(), bytes)).len(), bytes);
/// }
/// ```
pub fn padded(mut campaign: Campaign, bytes: usize) -> Campaign {
    campaign.strings.clear();
    let missing = bytes.checked_sub(pack(&campaign).len()).expect("the record is shorter");
    let (whole, rest) = (missing / WHOLE_STRING, missing % WHOLE_STRING);
    campaign.strings = vec![vec![b'x'; WHOLE_STRING - 1]; whole];
    campaign.strings.extend(rest.checked_sub(1).map(|length| vec![b'x'; length]));
    campaign
}

/// 65,536 bytes with nearly as many changes as a page holds, of so many countries.
///
/// ```
/// use chronicle_trial::{extremes::pages::whole_page, model, pack::pack};
///
/// let record = pack(&whole_page(600));
/// assert_eq!(record.len(), 65_536);
/// assert!(model::page(&record, b"").is_ok());
/// ```
pub fn whole_page(countries: usize) -> Campaign {
    let rest = 2_000 - countries;
    let counts =
        [('C', countries), ('P', 1_900 - rest / 2), ('A', rest / 2), ('B', rest / 2), ('E', 3_900)];
    padded(sized(&counts_of(&counts), 1), 65_536)
}
