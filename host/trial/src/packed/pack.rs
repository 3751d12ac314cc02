//! Campaigns as plain rows, and the packed record written from them.
//!
//! Nothing is checked here beyond what the fields can hold: runs also need bad records.

/// Three bytes, such as `ENG`.
pub type Tag = [u8; 3];

/// year×10000 + month×100 + day.
pub type Date = u32;

/// `---`, the tag of nobody.
pub const NONE: Tag = *b"---";

/// Bit of [`Campaign::flags`].
pub const IRONMAN: u8 = 1;
/// Bit of [`Campaign::flags`].
pub const MULTIPLAYER: u8 = 2;
/// Bit of [`Country::flags`].
pub const HUMAN: u8 = 1;
/// Bit of [`Country::flags`].
pub const WAS_PLAYER: u8 = 2;
/// Bit of [`Country::flags`].
pub const HAS_SWITCHED_NATION: u8 = 4;

/// Everything a packed record holds.
#[derive(Clone, Debug, Default, PartialEq, Eq)]
#[allow(missing_docs)]
pub struct Campaign {
    pub flags: u8,
    pub start: Date,
    pub current: Date,
    pub countries: Vec<Country>,
    pub provinces: Vec<Province>,
    pub wars: Vec<War>,
    pub ledger: Vec<LedgerName>,
    pub strings: Vec<Vec<u8>>,
}

/// A country row with the previous tags and switches it owns.
#[derive(Clone, Debug, Default, PartialEq, Eq)]
#[allow(missing_docs)]
pub struct Country {
    pub tag: Tag,
    pub flags: u8,
    pub num_of_cities: i32,
    pub previous_tags: Vec<Tag>,
    pub switches: Vec<Switch>,
}

/// On this date the country gave up the tag `from`.
#[derive(Clone, Copy, Debug, Default, PartialEq, Eq)]
#[allow(missing_docs)]
pub struct Switch {
    pub date: Date,
    pub from: Tag,
}

/// A province row with its owner events.
#[derive(Clone, Debug, Default, PartialEq, Eq)]
#[allow(missing_docs)]
pub struct Province {
    pub id: u16,
    pub owner: Tag,
    pub events: Vec<OwnerEvent>,
}

/// On this date the province went to `tag`.
#[derive(Clone, Copy, Debug, Default, PartialEq, Eq)]
#[allow(missing_docs)]
pub struct OwnerEvent {
    pub date: Date,
    pub tag: Tag,
}

/// A war with its events.
#[derive(Clone, Debug, Default, PartialEq, Eq)]
#[allow(missing_docs)]
pub struct War {
    pub events: Vec<WarEvent>,
}

/// Kind 0 adds an attacker, 1 a defender, 2 and 3 remove them, 4 is a battle.
#[derive(Clone, Copy, Debug, Default, PartialEq, Eq)]
#[allow(missing_docs)]
pub struct WarEvent {
    pub date: Date,
    pub kind: u8,
    pub tag: Tag,
}

/// A ledger name with its points.
#[derive(Clone, Debug, Default, PartialEq, Eq)]
#[allow(missing_docs)]
pub struct LedgerName {
    pub tag: Tag,
    pub points: Vec<Point>,
}

/// A nation's value in a year.
#[derive(Clone, Copy, Debug, Default, PartialEq, Eq)]
#[allow(missing_docs)]
pub struct Point {
    pub year: u16,
    pub value: i32,
}

/// Writes the packed record, edition 1.
///
/// # Panics
///
/// If a number of rows does not fit its field, or a string is longer than 255 bytes.
///
/// ```
/// use chronicle_trial::pack::{pack, Campaign};
///
/// let campaign = Campaign { start: 14441111, current: 14500101, ..Campaign::default() };
/// let record = pack(&campaign);
/// assert_eq!(record.len(), 44);
/// assert_eq!(&record[..6], b"ATL\x01\x00\x00");
/// ```
pub fn pack(campaign: &Campaign) -> Vec<u8> {
    let mut out = Vec::new();
    pack_head(&mut out, campaign);
    pack_countries(&mut out, &campaign.countries);
    pack_provinces(&mut out, &campaign.provinces);
    pack_wars(&mut out, &campaign.wars);
    pack_ledger(&mut out, &campaign.ledger);
    for string in &campaign.strings {
        let length = u8::try_from(string.len()).expect("a string has at most 255 bytes");
        out.push(length);
        out.extend_from_slice(string);
    }
    out
}

fn pack_head(out: &mut Vec<u8>, campaign: &Campaign) {
    let countries = &campaign.countries;
    out.extend_from_slice(b"ATL");
    out.extend_from_slice(&1u16.to_le_bytes());
    out.push(campaign.flags);
    put_date(out, campaign.start);
    put_date(out, campaign.current);
    put_short(out, countries.len());
    put_short(out, campaign.provinces.len());
    put_long(out, countries.iter().map(|c| c.previous_tags.len()).sum());
    put_long(out, countries.iter().map(|c| c.switches.len()).sum());
    put_long(out, campaign.provinces.iter().map(|p| p.events.len()).sum());
    put_short(out, campaign.strings.len());
    put_short(out, campaign.wars.len());
    put_long(out, campaign.wars.iter().map(|w| w.events.len()).sum());
    put_short(out, campaign.ledger.len());
    put_long(out, campaign.ledger.iter().map(|n| n.points.len()).sum());
}

fn pack_countries(out: &mut Vec<u8>, countries: &[Country]) {
    for country in countries {
        out.extend_from_slice(&country.tag);
        out.push(country.flags);
        out.extend_from_slice(&country.num_of_cities.to_le_bytes());
        put_short(out, country.previous_tags.len());
        put_short(out, country.switches.len());
    }
    for tag in countries.iter().flat_map(|c| &c.previous_tags) {
        out.extend_from_slice(tag);
    }
    for switch in countries.iter().flat_map(|c| &c.switches) {
        put_date(out, switch.date);
        out.extend_from_slice(&switch.from);
    }
}

fn pack_provinces(out: &mut Vec<u8>, provinces: &[Province]) {
    for province in provinces {
        out.extend_from_slice(&province.id.to_le_bytes());
        out.extend_from_slice(&province.owner);
        put_short(out, province.events.len());
    }
    for event in provinces.iter().flat_map(|p| &p.events) {
        put_date(out, event.date);
        out.extend_from_slice(&event.tag);
    }
}

fn pack_wars(out: &mut Vec<u8>, wars: &[War]) {
    for war in wars {
        put_short(out, war.events.len());
    }
    for event in wars.iter().flat_map(|w| &w.events) {
        put_date(out, event.date);
        out.push(event.kind);
        out.extend_from_slice(&event.tag);
    }
}

fn pack_ledger(out: &mut Vec<u8>, ledger: &[LedgerName]) {
    for name in ledger {
        out.extend_from_slice(&name.tag);
        put_short(out, name.points.len());
    }
    for point in ledger.iter().flat_map(|n| &n.points) {
        out.extend_from_slice(&point.year.to_le_bytes());
        out.extend_from_slice(&point.value.to_le_bytes());
    }
}

fn put_date(out: &mut Vec<u8>, date: Date) {
    out.extend_from_slice(&date.to_le_bytes());
}

fn put_short(out: &mut Vec<u8>, count: usize) {
    let count = u16::try_from(count).expect("the count fits 16 bits");
    out.extend_from_slice(&count.to_le_bytes());
}

fn put_long(out: &mut Vec<u8>, count: usize) {
    let count = u32::try_from(count).expect("the count fits 32 bits");
    out.extend_from_slice(&count.to_le_bytes());
}

#[cfg(test)]
mod tests {
    use super::*;

    #[test]
    fn every_section_stands_in_its_order() {
        let campaign = Campaign {
            flags: IRONMAN | MULTIPLAYER,
            start: 1,
            current: 2,
            countries: vec![Country {
                tag: *b"AAA",
                flags: HUMAN,
                num_of_cities: -1,
                previous_tags: vec![*b"BBB"],
                switches: vec![Switch { date: 3, from: *b"CCC" }],
            }],
            provinces: vec![Province {
                id: 258,
                owner: NONE,
                events: vec![OwnerEvent { date: 4, tag: *b"DDD" }],
            }],
            wars: vec![War { events: vec![WarEvent { date: 5, kind: 4, tag: *b"EEE" }] }],
            ledger: vec![LedgerName { tag: *b"FFF", points: vec![Point { year: 259, value: -2 }] }],
            strings: vec![b"ab".to_vec(), vec![]],
        };
        let head = b"ATL\x01\0\x03\x01\0\0\0\x02\0\0\0\x01\0\x01\0\x01\0\0\0\x01\0\0\0\x01\0\0\0\
                     \x02\0\x01\0\x01\0\0\0\x01\0\x01\0\0\0";
        let rows = b"AAA\x01\xff\xff\xff\xff\x01\0\x01\0BBB\x03\0\0\0CCC\
                     \x02\x01---\x01\0\x04\0\0\0DDD\x01\0\x05\0\0\0\x04EEE\
                     FFF\x01\0\x03\x01\xfe\xff\xff\xff\x02ab\0";
        assert_eq!(pack(&campaign), [&head[..], &rows[..]].concat());
    }
}
