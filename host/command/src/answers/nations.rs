//! Nations, those that live, the wars they entered and their ledgers.

use std::collections::HashMap;

use chronicle::{Entry, EntryKind, Nation, Refusal, WarParticipant};

use super::{living as lives, tags, Asked};
use crate::failure::Failure;
use crate::output::Output;
use crate::rows::Object;

/// The nations by their first tag, each with what befell it, a line each.
pub fn nations(asked: &Asked<'_>, out: &mut Output<'_>) -> Result<(), Failure> {
    let chronicle = asked.chronicle()?;
    if chronicle.nations().len() == 0 {
        out.remark(format_args!("no nation held land"));
    }
    out.headings()?;
    for nation in chronicle.nations() {
        let Nation { initial, latest, stored, .. } = nation;
        let state = lives::state(&nation);
        out.row(format_args!("{initial}, now {latest}, stored under {stored}, {state}"), || {
            Object::new()
                .plain("number", nation.number)
                .text("initial", initial)
                .text("latest", latest)
                .text("stored", stored)
                .text("state", state)
                .list("entries", nation.entries.iter().map(object))
        })?;
        for entry in &nation.entries {
            out.detail(format_args!("  {} {}", entry.date, befell(entry)))?;
        }
    }
    Ok(())
}

/// The nations that live at the end, and how many slots each holds then.
pub fn living(asked: &Asked<'_>, out: &mut Output<'_>) -> Result<(), Failure> {
    let chronicle = asked.chronicle()?;
    let held: HashMap<_, usize> = chronicle.held().collect();
    let mut any = false;
    out.headings()?;
    for nation in chronicle.nations().filter(lives::is_living) {
        any = true;
        let Nation { number, initial, latest, stored, .. } = nation;
        let held = held.get(&stored).copied().unwrap_or_default();
        let provinces =
            if held == 1 { "1 province".to_string() } else { format!("{held} provinces") };
        out.row(
            format_args!("{initial}, now {latest}, stored under {stored}, holds {provinces}"),
            || {
                Object::new()
                    .plain("number", number)
                    .text("initial", initial)
                    .text("latest", latest)
                    .text("stored", stored)
                    .plain("held", held)
            },
        )?;
    }
    if !any {
        out.remark(format_args!("no nation lives"));
    }
    Ok(())
}

fn befell(entry: &Entry) -> String {
    match entry.kind {
        EntryKind::TagSwitch(target) => format!("becomes {target}"),
        EntryKind::Appeared => "appears".to_string(),
        EntryKind::Annexed => "is annexed".to_string(),
    }
}

fn object(entry: &Entry) -> String {
    let (kind, target) = match entry.kind {
        EntryKind::TagSwitch(target) => ("switch", Some(target)),
        EntryKind::Appeared => ("appeared", None),
        EntryKind::Annexed => ("annexed", None),
    };
    Object::new().text("date", entry.date).text("kind", kind).perhaps("target", target).json()
}

/// Who entered which war, when, and on which side.
pub fn wars(asked: &Asked<'_>, out: &mut Output<'_>) -> Result<(), Failure> {
    let chronicle = asked.chronicle()?;
    let participants = asked.or_refused(chronicle.war_participants())?;
    if participants.is_empty() {
        out.remark(format_args!("nobody entered a war"));
    }
    out.headings()?;
    for WarParticipant { war, date, side, tag, stored } in participants {
        let told = format_args!("{date}  war {war:<5} {tag} as {side}, stored under {stored}");
        out.row(told, || {
            Object::new()
                .plain("war", war)
                .text("date", date)
                .text("side", side)
                .text("tag", tag)
                .text("stored", stored)
        })?;
    }
    Ok(())
}

/// The ledger of the nation stored under a tag.
pub fn ledger(asked: &Asked<'_>, out: &mut Output<'_>) -> Result<(), Failure> {
    let (tag, chronicle) = (asked.tag(0)?, asked.chronicle()?);
    let Some(nation) = chronicle.stored_under(tag) else {
        let nations: Vec<Nation> = chronicle.nations().collect();
        return Err(Failure::Refused {
            file: asked.question.file().to_owned(),
            refusal: Refusal::NoSuchNation,
            more: Some(format!(
                "no nation is stored under {tag}{}",
                tags::told(asked, &nations, tag)
            )),
        });
    };
    let ledger = asked.or_refused(chronicle.nation_ledger(nation.number))?;
    if ledger.is_empty() {
        out.remark(format_args!("the ledger has no tag that it wore"));
    }
    out.headings()?;
    for point in ledger {
        let (year, tag, value) = (point.year, point.tag, point.value);
        out.row(format_args!("{year:04}  {tag}  {value}"), || {
            Object::new().plain("year", year).text("tag", tag).plain("value", value)
        })?;
    }
    Ok(())
}
