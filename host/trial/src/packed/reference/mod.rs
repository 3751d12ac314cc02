//! An independent checker of packed records, written from the rules alone.
//!
//! It shares nothing with the proved function and is what that function is compared with, in
//! answers and in time.

use chronicle::layout::{self, Counts, HEAD};
use chronicle::Refusal;

const HEAD_FLAGS: u8 = 0b11;
const COUNTRY_FLAGS: u8 = 0b111;
const LAST_KIND: u8 = 4;
const LAST_YEAR: u16 = 9999;

/// Days of each month, by its number; there is no month 0, and there are no leap days.
const DAYS: [u32; 13] = [0, 31, 28, 31, 30, 31, 30, 31, 31, 30, 31, 30, 31];

/// Which bytes a tag may have. Looked up, because letters and digits in turn are hard to
/// foresee for a processor that would compare and branch.
const TAG_BYTES: [bool; 256] = {
    let mut good = [false; 256];
    let mut byte = 0;
    while byte < 256 {
        good[byte] = (byte as u8).is_ascii_alphanumeric() || byte as u8 == b'-';
        byte += 1;
    }
    good
};

/// 0 if the record is accepted, else the number of its refusal.
///
/// ```
/// use chronicle_trial::{reference::refusal_number, sample};
///
/// assert_eq!(refusal_number(sample::WORKED), 0);
/// assert_eq!(refusal_number(&sample::WORKED[..102]), 3);
/// ```
pub fn refusal_number(record: &[u8]) -> u8 {
    crate::number(inspect(record))
}

/// Makes the checks in the order of Rules 2.12: 1, 2, 3, then fields in file order, then 7, then 8.
///
/// ```
/// use chronicle::Refusal;
/// use chronicle_trial::reference::inspect;
///
/// assert_eq!(inspect(b"ATL"), Err(Refusal::NotARecord));
/// ```
pub fn inspect(record: &[u8]) -> Result<(), Refusal> {
    let head = opening(record)?;
    let counts = Counts::read(head);
    require(counts.within_limits(), Refusal::SizesDisagree)?;
    let rows = Rows::split(record, &counts).ok_or(Refusal::SizesDisagree)?;
    require(rows.sizes_agree(&counts), Refusal::SizesDisagree)?;

    check_head(head)?;
    rows.check_fields()?;

    require(tags_differ(rows.countries), Refusal::Repeated)?;
    require(ids_fit_once(rows.provinces), Refusal::Repeated)?;
    let [start, current] = [layout::START_AT, layout::CURRENT_AT].map(|at| date_at(head, at));
    require(start <= current, Refusal::DatesReversed)
}

fn require(condition: bool, refusal: Refusal) -> Result<(), Refusal> {
    if condition {
        Ok(())
    } else {
        Err(refusal)
    }
}

fn opening(record: &[u8]) -> Result<&[u8; HEAD], Refusal> {
    let head = record.first_chunk().ok_or(Refusal::NotARecord)?;
    require(head.starts_with(b"ATL"), Refusal::NotARecord)?;
    require(short_at(head, 3) == 1, Refusal::UnknownVersion)?;
    Ok(head)
}

fn check_head(head: &[u8; HEAD]) -> Result<(), Refusal> {
    check_flags(head[layout::FLAGS_AT], HEAD_FLAGS)?;
    check_date(date_at(head, layout::START_AT))?;
    check_date(date_at(head, layout::CURRENT_AT))
}

/// The rows of each section; the strings are still in one piece.
struct Rows<'a> {
    countries: &'a [[u8; layout::COUNTRY]],
    previous_tags: &'a [[u8; layout::PREVIOUS_TAG]],
    switches: &'a [[u8; layout::SWITCH]],
    provinces: &'a [[u8; layout::PROVINCE]],
    owner_events: &'a [[u8; layout::OWNER_EVENT]],
    wars: &'a [[u8; layout::WAR]],
    war_events: &'a [[u8; layout::WAR_EVENT]],
    ledger_names: &'a [[u8; layout::LEDGER_NAME]],
    points: &'a [[u8; layout::POINT]],
    strings: &'a [u8],
}

impl<'a> Rows<'a> {
    /// None if the record ends before the strings begin.
    fn split(record: &'a [u8], counts: &Counts) -> Option<Rows<'a>> {
        let at = counts.sections();
        let strings = record.get(at.strings..)?;
        Some(Rows {
            countries: record[at.countries].as_chunks().0,
            previous_tags: record[at.previous_tags].as_chunks().0,
            switches: record[at.switches].as_chunks().0,
            provinces: record[at.provinces].as_chunks().0,
            owner_events: record[at.owner_events].as_chunks().0,
            wars: record[at.wars].as_chunks().0,
            war_events: record[at.war_events].as_chunks().0,
            ledger_names: record[at.ledger_names].as_chunks().0,
            points: record[at.points].as_chunks().0,
            strings,
        })
    }

    /// The five row totals are the head's, and the strings end with the record.
    fn sizes_agree(&self, counts: &Counts) -> bool {
        total(self.countries, 8) == counts.previous_tags
            && total(self.countries, 10) == counts.switches
            && total(self.provinces, 5) == counts.owner_events
            && total(self.wars, 0) == counts.war_events
            && total(self.ledger_names, 3) == counts.points
            && strings_fill(self.strings, counts.strings)
    }

    /// Sections in file order, so that the first bad field decides.
    fn check_fields(&self) -> Result<(), Refusal> {
        self.countries.iter().try_for_each(check_country)?;
        self.previous_tags.iter().try_for_each(|&tag| check_tag(tag))?;
        self.switches.iter().try_for_each(check_dated_tag)?;
        self.provinces.iter().try_for_each(check_province)?;
        self.owner_events.iter().try_for_each(check_dated_tag)?;
        self.war_events.iter().try_for_each(check_war_event)?;
        self.ledger_names.iter().try_for_each(check_ledger_name)?;
        let good = self.points.iter().all(|point| short_at(point, 0) <= LAST_YEAR);
        require(good, Refusal::LedgerYear)
    }
}

/// Sum of the 16-bit counts that stand at the same place of every row.
fn total<const WIDTH: usize>(rows: &[[u8; WIDTH]], at: usize) -> usize {
    rows.iter().map(|row| usize::from(short_at(row, at))).sum()
}

fn strings_fill(mut bytes: &[u8], strings: usize) -> bool {
    for _ in 0..strings {
        let Some((&length, rest)) = bytes.split_first() else {
            return false;
        };
        let Some(rest) = rest.get(usize::from(length)..) else {
            return false;
        };
        bytes = rest;
    }
    bytes.is_empty()
}

fn check_country(row: &[u8; layout::COUNTRY]) -> Result<(), Refusal> {
    check_tag([row[0], row[1], row[2]])?;
    check_flags(row[3], COUNTRY_FLAGS)
}

/// A switch or an owner event: date, then tag.
fn check_dated_tag(row: &[u8; 7]) -> Result<(), Refusal> {
    check_date(date_at(row, 0))?;
    check_tag([row[4], row[5], row[6]])
}

fn check_province(row: &[u8; layout::PROVINCE]) -> Result<(), Refusal> {
    check_tag([row[2], row[3], row[4]])
}

fn check_war_event(row: &[u8; layout::WAR_EVENT]) -> Result<(), Refusal> {
    check_date(date_at(row, 0))?;
    require(row[4] <= LAST_KIND, Refusal::UndefinedFlag)?;
    check_tag([row[5], row[6], row[7]])
}

fn check_ledger_name(row: &[u8; layout::LEDGER_NAME]) -> Result<(), Refusal> {
    check_tag([row[0], row[1], row[2]])
}

pub(crate) fn check_tag(tag: [u8; 3]) -> Result<(), Refusal> {
    let good = |byte: u8| TAG_BYTES[usize::from(byte)];
    require(tag.into_iter().all(good), Refusal::BadTag)
}

fn check_flags(flags: u8, defined: u8) -> Result<(), Refusal> {
    require(flags & !defined == 0, Refusal::UndefinedFlag)
}

pub(crate) fn check_date(date: u32) -> Result<(), Refusal> {
    let (year, month, day) = (date / 10_000, date / 100 % 100, date % 100);
    let days = DAYS.get(month as usize).copied().unwrap_or(0);
    let good = (1..=9999).contains(&year) && (1..=days).contains(&day);
    require(good, Refusal::BadDate)
}

fn tags_differ(countries: &[[u8; layout::COUNTRY]]) -> bool {
    let tag = |row: &[u8; layout::COUNTRY]| u32::from_le_bytes([row[0], row[1], row[2], 0]);
    let mut tags: Vec<u32> = countries.iter().map(tag).collect();
    tags.sort_unstable();
    tags.windows(2).all(|pair| pair[0] != pair[1])
}

/// Ids run from 0 to the number of provinces, so a mark for each is enough.
fn ids_fit_once(provinces: &[[u8; layout::PROVINCE]]) -> bool {
    let mut seen = vec![false; provinces.len() + 1];
    provinces.iter().all(|row| {
        let id = usize::from(short_at(row, 0));
        seen.get_mut(id).is_some_and(|mark| !std::mem::replace(mark, true))
    })
}

fn short_at<const WIDTH: usize>(row: &[u8; WIDTH], at: usize) -> u16 {
    u16::from_le_bytes([row[at], row[at + 1]])
}

fn date_at<const WIDTH: usize>(row: &[u8; WIDTH], at: usize) -> u32 {
    u32::from_le_bytes([row[at], row[at + 1], row[at + 2], row[at + 3]])
}

#[cfg(test)]
mod tests;
