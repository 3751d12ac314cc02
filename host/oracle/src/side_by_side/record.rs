//! A record's rows, for somebody who wants to see what shows a difference.

use std::fmt::Write;

use chronicle_trial::pack::{pack, Campaign, Country, LedgerName, Province, War};

/// Bytes as text, whatever they are.
pub(super) fn text(bytes: &[u8]) -> String {
    String::from_utf8_lossy(bytes).into_owned()
}

/// A line for the head and for each row, with what it owns.
///
/// ```
/// use chronicle_oracle::side_by_side::told;
/// use chronicle_trial::sample;
///
/// assert_eq!(
///     told(&sample::worked()),
///     "103 bytes, from 14441111 to 14500101, flags 0\n\
///      country GBR, flags 0, cities 0; until 14480601 ENG\n\
///      country FRA, flags 0, cities 0\n\
///      province 1 of ENG; 14460101 FRA\n\
///      province 2 of FRA; 14470101 ENG\n"
/// );
/// ```
pub fn told(campaign: &Campaign) -> String {
    let Campaign { flags, start, current, .. } = campaign;
    let bytes = pack(campaign).len();
    let mut told = format!("{bytes} bytes, from {start} to {current}, flags {flags}\n");
    let mut line = |text: String| {
        let _ = writeln!(told, "{text}");
    };
    campaign.countries.iter().for_each(|row| line(country(row)));
    campaign.provinces.iter().for_each(|row| line(province(row)));
    campaign.wars.iter().enumerate().for_each(|(number, row)| line(war(number, row)));
    campaign.ledger.iter().for_each(|row| line(ledger(row)));
    campaign.strings.iter().for_each(|string| line(format!("string {:?}", text(string))));
    told
}

fn country(country: &Country) -> String {
    let Country { tag, flags, num_of_cities, previous_tags, switches } = country;
    let mut told = format!("country {}, flags {flags}, cities {num_of_cities}", text(tag));
    for tag in previous_tags {
        let _ = write!(told, "; before {}", text(tag));
    }
    for switch in switches {
        let _ = write!(told, "; until {} {}", switch.date, text(&switch.from));
    }
    told
}

fn province(province: &Province) -> String {
    let mut told = format!("province {} of {}", province.id, text(&province.owner));
    for event in &province.events {
        let _ = write!(told, "; {} {}", event.date, text(&event.tag));
    }
    told
}

fn war(number: usize, war: &War) -> String {
    let mut told = format!("war {number}");
    for event in &war.events {
        let _ = write!(told, "; {} kind {} {}", event.date, event.kind, text(&event.tag));
    }
    told
}

fn ledger(name: &LedgerName) -> String {
    let mut told = format!("ledger {}", text(&name.tag));
    for point in &name.points {
        let _ = write!(told, "; {} {}", point.year, point.value);
    }
    told
}
