//! Tags that no nation is known by, and what is near.

use std::collections::BTreeSet;

use chronicle::{Chronicle, CountryTag, EntryKind, Nation};

use super::Asked;
use crate::failure::{Failure, REFUSED};
use crate::near::{meant, near};
use crate::output::Output;

/// Says of each tag that no nation is stored under what is near; whether there was none such.
pub fn remarks(
    asked: &Asked<'_>,
    chronicle: &Chronicle<'_>,
    tags: &[CountryTag],
    out: &mut Output<'_>,
) -> bool {
    let nations: Vec<Nation> = chronicle.nations().collect();
    let stored: BTreeSet<CountryTag> = nations.iter().map(|nation| nation.stored).collect();
    let mut said = BTreeSet::new();
    for &tag in tags.iter().filter(|tag| !stored.contains(tag)) {
        if said.insert(tag) {
            out.warn(format_args!("no nation is stored under {tag}{}", told(asked, &nations, tag)));
        }
    }
    said.is_empty()
}

/// Says of a tag that nobody ever went by what is near; whether somebody did.
pub fn worn(
    asked: &Asked<'_>,
    chronicle: &Chronicle<'_>,
    tag: CountryTag,
    out: &mut Output<'_>,
) -> bool {
    let nations: Vec<Nation> = chronicle.nations().collect();
    let wore = |nation: &Nation| nation.stored == tag || nation.initial == tag || took(nation, tag);
    let known = nations.iter().any(wore);
    if !known {
        out.warn(format_args!("no nation ever went by {tag}{}", told(asked, &nations, tag)));
    }
    known
}

/// With `--strict` an unknown tag is a failure, behind the answer.
pub fn strict(asked: &Asked<'_>, known: bool) -> Result<(), Failure> {
    if known || !asked.question.has("--strict") {
        return Ok(());
    }
    Err(Failure::Told(REFUSED))
}

/// What is near a tag that no nation is stored under.
pub fn told(asked: &Asked<'_>, nations: &[Nation], tag: CountryTag) -> String {
    if let Some(nation) = nations.iter().find(|nation| nation.initial == tag) {
        return format!(": {tag} is the first tag of {}", nation.stored);
    }
    if let Some(nation) = nations.iter().find(|nation| took(nation, tag)) {
        return format!(": {tag} is a tag that {} took", nation.stored);
    }
    if asked.record.countries().any(|country| country == tag) {
        return format!(": the country {tag} never held land");
    }
    let known: Vec<CountryTag> = nations.iter().map(|nation| nation.stored).collect();
    let near = near(tag.as_str(), known.iter().map(CountryTag::as_str));
    if near.is_empty() {
        return ": `chronicle nations` lists them".to_string();
    }
    meant(&near)
}

fn took(nation: &Nation, tag: CountryTag) -> bool {
    nation.entries.iter().any(|entry| entry.kind == EntryKind::TagSwitch(tag))
}
