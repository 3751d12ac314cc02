//! What is wrong with a record's opening, and with its sizes.

use super::place::{Part, Place};
use super::rows::{head_bytes, long, short, Rows};
use super::Offence;
use crate::layout::{Counts, HEAD, HEAD_COUNTS};
use crate::Refusal;

fn in_head(record: &[u8], refusal: Refusal, offset: usize, found: String) -> Offence {
    Offence { refusal, offset, place: Place::head(head_bytes(record)), found }
}

/// Bytes that are no record of version 1.
pub fn opening(record: &[u8]) -> Option<Offence> {
    let length = record.len();
    if length < HEAD {
        let told = format!("the record ends after {length} bytes, and its head has {HEAD}");
        return Some(in_head(record, Refusal::NotARecord, length, told));
    }
    if let Some(offset) = (0..3).find(|&at| record[at] != b"ATL"[at]) {
        let told =
            format!("the record opens with `{}` and not with `ATL`", record[..3].escape_ascii());
        return Some(in_head(record, Refusal::NotARecord, offset, told));
    }
    let version = short(record, 3);
    let told = || format!("the version is {version}, and 1 is the only one");
    (version != 1).then(|| in_head(record, Refusal::UnknownVersion, 3, told()))
}

/// Counts above their limits, rows that are missing, counts that the rows do not add up to, and strings that do
/// not end with the record.
pub fn offences(rows: &Rows<'_>, counts: &Counts) -> Vec<Offence> {
    let mut found = above_limits(rows.record());
    if !found.is_empty() {
        return found;
    }
    let (length, needed) = (rows.record().len(), rows.strings());
    if length < needed {
        let told = format!("the record ends after {length} bytes, and its rows need {needed}");
        return vec![at_end(length, told)];
    }
    found.extend(totals(rows, counts));
    found.extend(strings(rows, counts.strings));
    found
}

fn at_end(offset: usize, found: String) -> Offence {
    let place = Place::unnamed(Part::End, 0, offset..offset);
    Offence { refusal: Refusal::SizesDisagree, offset, place, found }
}

fn above_limits(record: &[u8]) -> Vec<Offence> {
    let count = |offset, width| {
        if width == 2 {
            short(record, offset)
        } else {
            long(record, offset) as usize
        }
    };
    HEAD_COUNTS
        .into_iter()
        .map(|(letter, offset, width, limit)| (letter, offset, count(offset, width), limit))
        .filter(|&(_, _, count, limit)| count > limit)
        .map(|(letter, offset, count, limit)| {
            let told = format!("count {letter} is {count}, and its limit {limit}");
            in_head(record, Refusal::SizesDisagree, offset, told)
        })
        .collect()
}

/// Totals of rows that differ from the head's counts.
fn totals<'a>(rows: &'a Rows<'_>, counts: &Counts) -> impl Iterator<Item = Offence> + 'a {
    let totals = [
        (Part::PreviousTag, 18, counts.previous_tags),
        (Part::Switch, 22, counts.switches),
        (Part::OwnerEvent, 26, counts.owner_events),
        (Part::WarEvent, 34, counts.war_events),
        (Part::LedgerPoint, 40, counts.points),
    ];
    totals.into_iter().filter_map(|(part, offset, count)| {
        let (owner, total) = (part.owner()?.0, rows.owned(part));
        let (rows_of, owners) = (part.name(), owner.name());
        let told = || {
            format!("the head counts {count} rows of {rows_of}, and its {owners} rows own {total}")
        };
        (total != count).then(|| in_head(rows.record(), Refusal::SizesDisagree, offset, told()))
    })
}

/// A string that runs past the end, or bytes behind the last one.
fn strings(rows: &Rows<'_>, count: usize) -> Option<Offence> {
    let (record, mut at) = (rows.record(), rows.strings());
    for number in 0..count {
        let wrong = |found: String| {
            let place = Place::unnamed(Part::String, number, at..record.len());
            Some(Offence { refusal: Refusal::SizesDisagree, offset: at, place, found })
        };
        let Some(&length) = record.get(at) else {
            return wrong(format!("the record ends before it, and counts {count} strings"));
        };
        let left = record.len() - at - 1;
        if left < usize::from(length) {
            return wrong(format!("it has {length} bytes, of which the record holds {left}"));
        }
        at += 1 + usize::from(length);
    }
    let left = record.len() - at;
    (left > 0).then(|| at_end(at, format!("bytes left over behind the last row or string: {left}")))
}
