//! The fields of each row, and what is wrong with one.

use super::place::Part;
use super::rows::{long, short};
use crate::layout::{CURRENT_AT, FLAGS_AT, START_AT};
use crate::{CountryTag, Eu4Date, Refusal};

/// What a field must be.
#[derive(Clone, Copy)]
enum Kind {
    Tag,
    Date,
    /// No other bits than these.
    Flags(u8),
    WarEvent,
    Year,
}

/// A field of a row: its name, its place in the row, and what it must be.
type Field = (&'static str, usize, Kind);

/// The fields that can be bad, in the order of their places.
const fn of(part: Part) -> &'static [Field] {
    match part {
        Part::Head => &[
            ("flags", FLAGS_AT, Kind::Flags(0b11)),
            ("start date", START_AT, Kind::Date),
            ("current date", CURRENT_AT, Kind::Date),
        ],
        Part::Country => &[("tag", 0, Kind::Tag), ("flags", 3, Kind::Flags(0b111))],
        Part::PreviousTag | Part::LedgerName => &[("tag", 0, Kind::Tag)],
        Part::Switch | Part::OwnerEvent => &[("date", 0, Kind::Date), ("tag", 4, Kind::Tag)],
        Part::Province => &[("owner", 2, Kind::Tag)],
        Part::WarEvent => {
            &[("date", 0, Kind::Date), ("kind", 4, Kind::WarEvent), ("tag", 5, Kind::Tag)]
        }
        Part::LedgerPoint => &[("year", 0, Kind::Year)],
        Part::War | Part::String | Part::End => &[],
    }
}

/// The bad fields of a row: where in it each stands, as what it is refused, and what is wrong with it.
pub fn bad(part: Part, row: &[u8]) -> impl Iterator<Item = (usize, Refusal, String)> + '_ {
    of(part).iter().filter_map(|&(name, at, kind)| {
        let (refusal, told) = wrong(&row[at..], kind)?;
        Some((at, refusal, format!("its {name} {told}")))
    })
}

/// Why the bytes of a field are bad, if they are.
fn wrong(bytes: &[u8], kind: Kind) -> Option<(Refusal, String)> {
    match kind {
        Kind::Tag => {
            let tag = [bytes[0], bytes[1], bytes[2]];
            let told = || format!("is `{}`, the bytes {:02x?}", tag.escape_ascii(), tag);
            CountryTag::create(tag).is_err().then(|| (Refusal::BadTag, told()))
        }
        Kind::Date => {
            let word = long(bytes, 0);
            let (year, month, day) = (word / 10_000, word / 100 % 100, word % 100);
            let told = || format!("is {year:04}-{month:02}-{day:02} ({word}), which is no day");
            Eu4Date::from_word(word).is_none().then(|| (Refusal::BadDate, told()))
        }
        Kind::Flags(defined) => {
            let flags = bytes[0];
            let told = || format!("are {flags:#010b}, and only {defined:#b} are defined");
            (flags & !defined != 0).then(|| (Refusal::UndefinedFlag, told()))
        }
        Kind::WarEvent => {
            let told = || format!("is {}, and 4 is the last", bytes[0]);
            (bytes[0] > 4).then(|| (Refusal::UndefinedFlag, told()))
        }
        Kind::Year => {
            let year = short(bytes, 0);
            let told = || format!("is {year}, and 9999 is the last");
            (year > 9999).then(|| (Refusal::LedgerYear, told()))
        }
    }
}
