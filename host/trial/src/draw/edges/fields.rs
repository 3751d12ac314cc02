//! Each field at its edges: tags, dates, flags, kinds, repeats, the order of dates, years.

use crate::calendar::DAYS;
use crate::damage::{MONTH_DAYS, TAG_EDGES, YEARS};
use crate::pack::{pack, Campaign, Country, Date, Province, Tag, NONE};

use super::{campaign, changed, Edges};

type SetTag = fn(&mut Campaign) -> &mut Tag;
type SetDate = fn(&mut Campaign) -> &mut Date;

/// Every place a tag stands in.
const TAGS: [(&str, SetTag); 10] = [
    ("country tag", |c| &mut c.countries[1].tag),
    ("previous tag", |c| &mut c.countries[0].previous_tags[1]),
    ("switch from", |c| &mut c.countries[1].switches[0].from),
    ("owner", |c| &mut c.provinces[0].owner),
    ("owner event tag", |c| &mut c.provinces[1].events[0].tag),
    ("attacker tag", |c| &mut c.wars[0].events[0].tag),
    ("removed attacker", |c| &mut c.wars[0].events[2].tag),
    ("removed defender", |c| &mut c.wars[0].events[3].tag),
    ("battle tag", |c| &mut c.wars[0].events[4].tag),
    ("ledger tag", |c| &mut c.ledger[0].tag),
];

/// Every place a date stands in beside the head.
const DATES: [(&str, SetDate); 3] = [
    ("switch date", |c| &mut c.countries[1].switches[0].date),
    ("owner event date", |c| &mut c.provinces[0].events[0].date),
    ("war event date", |c| &mut c.wars[0].events[4].date),
];

impl Edges {
    pub(super) fn tags(&mut self) {
        for (place, tag) in TAGS {
            for at in 0..3 {
                for &byte in TAG_EDGES {
                    let good = byte.is_ascii_alphanumeric() || byte == b'-';
                    let record = changed(|c| tag(c)[at] = byte);
                    let name = format!("{place}, byte {at} is {byte}");
                    self.add(if good { 0 } else { 4 }, name, record);
                }
            }
            self.add(0, format!("{place} is ---"), changed(|c| *tag(c) = NONE));
        }
    }

    pub(super) fn dates(&mut self) {
        for &(month, day) in MONTH_DAYS {
            self.date(14440000 + month * 100 + day, is_day(month, day));
        }
        for &year in YEARS {
            self.date(year * 10_000 + 101, (1..=9999).contains(&year));
            self.date(year * 10_000 + 1231, (1..=9999).contains(&year));
        }
        self.date(u32::MAX, false);
    }

    /// The date in every place; the head's other date is moved out of its way.
    fn date(&mut self, date: Date, good: bool) {
        let number = if good { 0 } else { 5 };
        for (place, set) in DATES {
            let name = format!("{place} {date}");
            self.add(number, name, changed(|c| *set(c) = date));
        }
        let start = changed(|c| (c.start, c.current) = (date, 99991231));
        self.add(number, format!("start date {date}"), start);
        let current = changed(|c| (c.start, c.current) = (10101, date));
        self.add(number, format!("current date {date}"), current);
    }

    pub(super) fn flags_and_kinds(&mut self) {
        for flags in [0, 1, 2, 3, 4, 5, 7, 8, 16, 32, 64, 128, 131, 255] {
            let number = if flags < 4 { 0 } else { 6 };
            self.add(number, format!("head flags {flags}"), changed(|c| c.flags = flags));
        }
        for flags in [0, 1, 2, 3, 4, 5, 6, 7, 8, 9, 15, 16, 32, 64, 128, 135, 255] {
            let number = if flags < 8 { 0 } else { 6 };
            self.add(
                number,
                format!("country flags {flags}"),
                changed(|c| c.countries[1].flags = flags),
            );
        }
        for kind in [0, 1, 2, 3, 4, 5, 6, 8, 128, 132, 255] {
            let number = if kind < 5 { 0 } else { 6 };
            self.add(
                number,
                format!("war event kind {kind}"),
                changed(|c| c.wars[0].events[1].kind = kind),
            );
        }
        for cities in [i32::MIN, -1, 0, i32::MAX] {
            self.add(
                0,
                format!("{cities} cities"),
                changed(|c| c.countries[0].num_of_cities = cities),
            );
        }
    }

    pub(super) fn repeats(&mut self) {
        for (first, second, number) in [
            (1, 2, 0),
            (0, 2, 0),
            (2, 0, 0),
            (1, 3, 7),
            (3, 1, 7),
            (1, 1, 7),
            (0, 0, 7),
            (1, 258, 7),
            (1, 65_535, 7),
        ] {
            let record = changed(|c| (c.provinces[0].id, c.provinces[1].id) = (first, second));
            self.add(number, format!("ids {first} and {second} of two"), record);
        }
        let country = |tag: &Tag| Country { tag: *tag, ..Country::default() };
        let of = |tags: &[&Tag]| {
            changed(|c| c.countries = tags.iter().map(|tag| country(tag)).collect())
        };
        self.add(7, "a country tag twice, side by side", of(&[b"ENG", b"FRA", b"FRA"]));
        self.add(7, "a country tag twice, apart", of(&[b"ENG", b"FRA", b"SCO", b"ENG"]));
        self.add(7, "--- twice", of(&[b"---", b"FRA", b"---"]));
        self.add(0, "tags that differ in case", of(&[b"ENG", b"eNG", b"EnG", b"ENg"]));
        self.add(
            0,
            "tags that differ in order",
            of(&[b"ENG", b"EGN", b"NEG", b"NGE", b"GEN", b"GNE"]),
        );
        let mut ledger_twice = campaign();
        ledger_twice.ledger.push(ledger_twice.ledger[0].clone());
        self.add(0, "a ledger tag twice", pack(&ledger_twice));
        let lone =
            |id| changed(|c| c.provinces = vec![Province { id, owner: NONE, events: vec![] }]);
        for (id, number) in [(0, 0), (1, 0), (2, 7)] {
            self.add(number, format!("id {id} of one"), lone(id));
        }
    }

    pub(super) fn order_of_dates(&mut self) {
        let dates = [
            (14441111, 14441111, 0),
            (14441111, 14441112, 0),
            (14441112, 14441111, 8),
            (14450101, 14441231, 8),
            (14441231, 14450101, 0),
            (14440201, 14440131, 8),
            (10101, 99991231, 0),
            (99991231, 10101, 8),
            // A multiple of 65536 lies between: comparing the low bytes alone goes wrong here.
            (15200101, 15210101, 0),
            (15210101, 15200101, 8),
        ];
        for (start, current, number) in dates {
            let record = changed(|c| (c.start, c.current) = (start, current));
            self.add(number, format!("start {start}, current {current}"), record);
        }
        let outside = changed(|c| {
            c.countries[1].switches[0].date = 10101;
            c.provinces[0].events[0].date = 99991231;
        });
        self.add(0, "events before the start and after the current date", outside);
    }

    pub(super) fn ledger_years(&mut self) {
        for (year, number) in [(0, 0), (1, 0), (9999, 0), (10_000, 9), (10_001, 9), (65_535, 9)] {
            for at in 0..2 {
                let record = changed(|c| c.ledger[0].points[at].year = year);
                self.add(number, format!("ledger year {year} in point {at}"), record);
            }
        }
    }
}

fn is_day(month: u32, day: u32) -> bool {
    let days = DAYS.get((month as usize).wrapping_sub(1));
    days.is_some_and(|days| (1..=*days).contains(&day))
}
