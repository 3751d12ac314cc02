//! A campaign of our own: a century around two islands, with something of everything in it.

use crate::pack::{
    Campaign, Country, Date, LedgerName, OwnerEvent, Point, Province, Switch, Tag, War, WarEvent,
    HUMAN, WAS_PLAYER,
};

/// The record of [`isles`], as shipped in samples/isles.atl.
pub const ISLES: &[u8] = include_bytes!("../../../../../samples/isles.atl");

/// Ann plays Tyrone, which takes Munster, becomes Ulster and then Ireland, and takes Dublin; Bob joins
/// her with the Netherlands, when those rise. Scotland falls and rises again, England becomes Great
/// Britain and Castile Spain, Burgundy, Brittany and Aragon are annexed for good, and Norway never has
/// land.
///
/// ```
/// use chronicle::raw::check;
/// use chronicle_trial::{pack::pack, sample::{isles, ISLES}};
///
/// assert_eq!(pack(&isles()), ISLES);
/// assert_eq!(check(ISLES), Ok(()));
/// ```
pub fn isles() -> Campaign {
    Campaign {
        start: 14441111,
        current: 15500101,
        countries: COUNTRIES.into_iter().map(country).collect(),
        provinces: PROVINCES.into_iter().zip(1..).map(province).collect(),
        wars: WARS.into_iter().map(war).collect(),
        ledger: LEDGER.into_iter().map(ledger_name).collect(),
        strings: PLAYERS.map(|text| text.as_bytes().to_vec()).to_vec(),
        ..Campaign::default()
    }
}

type OnDays = &'static [(Date, &'static Tag)];

/// Stored tag, flags, cities, and when it gave up which tag.
const COUNTRIES: [(&Tag, u8, i32, OnDays); 12] = [
    (b"FRA", 0, 5, &[]),
    (b"GBR", 0, 3, &[(14701101, b"ENG")]),
    (b"SCO", WAS_PLAYER, 1, &[]),
    (b"IRE", WAS_PLAYER | HUMAN, 3, &[(14600301, b"TYR"), (14650301, b"ULS")]),
    (b"MUN", 0, 0, &[]),
    (b"BUR", 0, 0, &[]),
    (b"BRI", 0, 0, &[]),
    (b"SPA", 0, 4, &[(14790119, b"CAS")]),
    (b"ARA", 0, 0, &[]),
    (b"POR", 0, 1, &[]),
    (b"NED", WAS_PLAYER | HUMAN, 1, &[]),
    (b"NOR", 0, 0, &[]),
];

/// Owner, and what it went to when; numbered from 1.
const PROVINCES: [(&Tag, OnDays); 18] = [
    // London, Cardiff, Edinburgh, Aberdeen
    (b"ENG", &[]),
    (b"ENG", &[]),
    (b"SCO", &[(14600805, b"ENG"), (14750101, b"SCO")]),
    (b"SCO", &[(14610101, b"ENG")]),
    // Paris, Bordeaux, Dijon, Bruges, Brest
    (b"FRA", &[]),
    (b"ENG", &[(14531017, b"FRA")]),
    (b"BUR", &[(14770105, b"FRA")]),
    (b"BUR", &[(14770105, b"FRA"), (15200101, b"NED")]),
    (b"BRI", &[(14910206, b"FRA")]),
    // Toledo, Leon, Zaragoza, Lisbon
    (b"CAS", &[]),
    (b"CAS", &[]),
    (b"ARA", &[(15160123, b"SPA")]),
    (b"POR", &[]),
    // Tyrone, Munster, Dublin
    (b"TYR", &[]),
    (b"MUN", &[(14500601, b"TYR")]),
    (b"ENG", &[(14850101, b"IRE")]),
    // Nobody's land, and the land of somebody who is no country of this campaign
    (b"---", &[]),
    (b"NAV", &[(15120724, b"SPA")]),
];

/// Day, what happens (0 an attacker joins, 1 a defender, 2 and 3 they leave, 4 a battle), and to whom.
const WARS: [&[(Date, u8, &Tag)]; 4] = [
    &[(14441111, 0, b"FRA"), (14441111, 1, b"ENG"), (14530717, 4, b"ENG"), (14531019, 3, b"ENG")],
    &[(14600701, 0, b"ENG"), (14600701, 1, b"SCO"), (14600801, 1, b"TYR"), (14610102, 3, b"SCO")],
    &[(14770101, 0, b"FRA"), (14770101, 1, b"BUR"), (14770110, 1, b"GBR"), (14770120, 2, b"FRA")],
    &[(14840601, 0, b"IRE"), (14840601, 1, b"GBR"), (14850102, 2, b"IRE")],
];

const LEDGER: [(&Tag, &[(u16, i32)]); 5] = [
    (b"TYR", &[(1445, 4), (1447, 5), (1451, 9)]),
    (b"ULS", &[(1462, 10), (1464, 11)]),
    (b"IRE", &[(1466, 12), (1470, -3), (1486, 20)]),
    (b"SCO", &[(1445, 8), (1459, 7), (1476, 3)]),
    (b"ENG", &[(1445, 30), (1454, 21)]),
];

/// Names and tags by turns; the game's own name is nobody's, and the last has no tag.
const PLAYERS: [&str; 7] = ["Ann", "IRE", "Player", "POR", "Bob", "NED", "Cid"];

fn country((tag, flags, cities, switches): (&Tag, u8, i32, OnDays)) -> Country {
    let switches: Vec<Switch> =
        switches.iter().map(|&(date, &from)| Switch { date, from }).collect();
    Country {
        tag: *tag,
        flags,
        num_of_cities: cities,
        previous_tags: switches.iter().map(|switch| switch.from).collect(),
        switches,
    }
}

fn province(((owner, events), id): ((&Tag, OnDays), u16)) -> Province {
    let events = events.iter().map(|&(date, &tag)| OwnerEvent { date, tag }).collect();
    Province { id, owner: *owner, events }
}

fn war(events: &[(Date, u8, &Tag)]) -> War {
    let event = |&(date, kind, &tag): &(Date, u8, &Tag)| WarEvent { date, kind, tag };
    War { events: events.iter().map(event).collect() }
}

fn ledger_name((tag, points): (&Tag, &[(u16, i32)])) -> LedgerName {
    let points = points.iter().map(|&(year, value)| Point { year, value }).collect();
    LedgerName { tag: *tag, points }
}
