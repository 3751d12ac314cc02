//! The way back from a packed record to the campaign.

use chronicle::layout::{self, Counts};
use chronicle::Refusal;

use crate::pack::{
    Campaign, Country, Date, LedgerName, OwnerEvent, Point, Province, Switch, Tag, War, WarEvent,
};
use crate::reference::inspect;

/// The campaign that packs to this record.
///
/// ```
/// use chronicle::Refusal;
/// use chronicle_trial::{sample, unpack::unpack};
///
/// assert_eq!(unpack(sample::WORKED), Ok(sample::worked()));
/// assert_eq!(unpack(b"ATL"), Err(Refusal::NotARecord));
/// ```
pub fn unpack(record: &[u8]) -> Result<Campaign, Refusal> {
    inspect(record)?;
    let head = record.first_chunk().expect("an accepted record has a head");
    let at = Counts::read(head).sections();
    let previous_tags = &mut rows(&record[at.previous_tags]).copied();
    let switches = &mut rows(&record[at.switches]).map(switch);
    let events = &mut rows(&record[at.owner_events]).map(owner_event);
    let war_events = &mut rows(&record[at.war_events]).map(war_event);
    let points = &mut rows(&record[at.points]).map(point);
    Ok(Campaign {
        flags: record[layout::FLAGS_AT],
        start: date(head, layout::START_AT),
        current: date(head, layout::CURRENT_AT),
        countries: rows(&record[at.countries])
            .map(|row| country(row, previous_tags, switches))
            .collect(),
        provinces: rows(&record[at.provinces]).map(|row| province(row, events)).collect(),
        wars: rows(&record[at.wars]).map(|row| war(row, war_events)).collect(),
        ledger: rows(&record[at.ledger_names]).map(|row| ledger_name(row, points)).collect(),
        strings: strings(&record[at.strings..]),
    })
}

fn rows<const WIDTH: usize>(section: &[u8]) -> std::slice::Iter<'_, [u8; WIDTH]> {
    section.as_chunks().0.iter()
}

fn country(
    row: &[u8; layout::COUNTRY],
    previous_tags: &mut impl Iterator<Item = Tag>,
    switches: &mut impl Iterator<Item = Switch>,
) -> Country {
    Country {
        tag: tag(row, 0),
        flags: row[3],
        num_of_cities: i32::from_le_bytes([row[4], row[5], row[6], row[7]]),
        previous_tags: previous_tags.take(short(row, 8)).collect(),
        switches: switches.take(short(row, 10)).collect(),
    }
}

fn switch(row: &[u8; layout::SWITCH]) -> Switch {
    Switch { date: date(row, 0), from: tag(row, 4) }
}

fn province(
    row: &[u8; layout::PROVINCE],
    events: &mut impl Iterator<Item = OwnerEvent>,
) -> Province {
    Province {
        id: u16::from_le_bytes([row[0], row[1]]),
        owner: tag(row, 2),
        events: events.take(short(row, 5)).collect(),
    }
}

fn owner_event(row: &[u8; layout::OWNER_EVENT]) -> OwnerEvent {
    OwnerEvent { date: date(row, 0), tag: tag(row, 4) }
}

fn war(row: &[u8; layout::WAR], events: &mut impl Iterator<Item = WarEvent>) -> War {
    War { events: events.take(short(row, 0)).collect() }
}

fn war_event(row: &[u8; layout::WAR_EVENT]) -> WarEvent {
    WarEvent { date: date(row, 0), kind: row[4], tag: tag(row, 5) }
}

fn ledger_name(
    row: &[u8; layout::LEDGER_NAME],
    points: &mut impl Iterator<Item = Point>,
) -> LedgerName {
    LedgerName { tag: tag(row, 0), points: points.take(short(row, 3)).collect() }
}

fn point(row: &[u8; layout::POINT]) -> Point {
    let value = i32::from_le_bytes([row[2], row[3], row[4], row[5]]);
    Point { year: u16::from_le_bytes([row[0], row[1]]), value }
}

fn strings(mut bytes: &[u8]) -> Vec<Vec<u8>> {
    let mut strings = Vec::new();
    while let Some((&length, rest)) = bytes.split_first() {
        let (string, rest) = rest.split_at(usize::from(length));
        strings.push(string.to_vec());
        bytes = rest;
    }
    strings
}

fn tag(row: &[u8], at: usize) -> Tag {
    [row[at], row[at + 1], row[at + 2]]
}

fn date(row: &[u8], at: usize) -> Date {
    u32::from_le_bytes([row[at], row[at + 1], row[at + 2], row[at + 3]])
}

fn short(row: &[u8], at: usize) -> usize {
    usize::from(u16::from_le_bytes([row[at], row[at + 1]]))
}

#[cfg(test)]
mod tests {
    use super::*;
    use crate::generate::{at_limits, campaign, Knobs, Random};
    use crate::pack::pack;

    #[test]
    fn unpacking_undoes_packing() {
        let mut random = Random::new(5);
        for _ in 0..500 {
            let drawn = campaign(&mut random, &Knobs::small());
            assert_eq!(unpack(&pack(&drawn)), Ok(drawn));
        }
        assert_eq!(unpack(&pack(&at_limits())), Ok(at_limits()));
    }
}
