//! Whose a tag is.

use chronicle::{Chronicle, CountryTag, TagData};

use super::{tags, Asked};
use crate::failure::Failure;
use crate::output::Output;
use crate::rows::Object;

/// Where the country that went by a tag on a date is now, or was on the day.
pub fn resolve(asked: &Asked<'_>, out: &mut Output<'_>) -> Result<(), Failure> {
    let (tag, date, day) = (asked.tag(0)?, asked.date(1)?, asked.day("--at")?);
    let chronicle = asked.chronicle()?;
    let found = match day {
        Some(day) => chronicle.at(day).resolve(tag, date),
        None => chronicle.resolve(tag, date),
    };
    told(asked, &chronicle, tag, asked.or_refused(found)?, out)
}

/// Where the country that began as a tag is now, or was on the day.
pub fn initial(asked: &Asked<'_>, out: &mut Output<'_>) -> Result<(), Failure> {
    let (tag, day) = (asked.tag(0)?, asked.day("--at")?);
    let chronicle = asked.chronicle()?;
    let found = match day {
        Some(day) => chronicle.at(day).initial(tag),
        None => chronicle.initial(tag),
    };
    told(asked, &chronicle, tag, asked.or_refused(found)?, out)
}

fn told(
    asked: &Asked<'_>,
    chronicle: &Chronicle<'_>,
    tag: CountryTag,
    found: Option<TagData>,
    out: &mut Output<'_>,
) -> Result<(), Failure> {
    out.headings()?;
    let text = match found {
        Some(TagData { current, stored }) => format!("{current}, stored under {stored}"),
        None => "none".to_string(),
    };
    out.row(format_args!("{text}"), || {
        Object::new()
            .perhaps("current", found.map(|found| found.current))
            .perhaps("stored", found.map(|found| found.stored))
    })?;
    let known = found.is_some() || tags::worn(asked, chronicle, tag, out);
    tags::strict(asked, known)
}
