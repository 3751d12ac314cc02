//! The page, of a record of any size.
//!
//! The library's page holds so many bytes, changes and entries; here the same lines are made of the nations, which
//! have no such limit. Tests hold the two against each other wherever the library's page answers.

use std::collections::HashMap;
use std::fmt;

use chronicle::{Chronicle, CountryTag, Nation};

use super::{living, tags, Asked};
use crate::failure::Failure;
use crate::output::Output;
use crate::rows::Object;

/// The page for the tags behind the file's name.
pub fn page(asked: &Asked<'_>, out: &mut Output<'_>) -> Result<(), Failure> {
    let selection = asked.tags()?;
    let chronicle = asked.chronicle()?;
    out.headings()?;
    for line in lines(&chronicle, &selection) {
        out.row(format_args!("{line}"), || line.object())?;
    }
    let known = tags::remarks(asked, &chronicle, &selection, out);
    tags::strict(asked, known)
}

/// A line of the page.
enum Line {
    /// How many tags are selected.
    Selected(usize),
    Of(Nation),
    Absent(CountryTag),
}

/// How many tags are selected, and then a line for each of them.
fn lines(chronicle: &Chronicle<'_>, selection: &[CountryTag]) -> Vec<Line> {
    let stored: HashMap<CountryTag, Nation> =
        chronicle.nations().map(|nation| (nation.stored, nation)).collect();
    let line = |tag: &CountryTag| {
        stored.get(tag).map_or(Line::Absent(*tag), |nation| Line::Of(nation.clone()))
    };
    [Line::Selected(selection.len())].into_iter().chain(selection.iter().map(line)).collect()
}

impl fmt::Display for Line {
    fn fmt(&self, f: &mut fmt::Formatter<'_>) -> fmt::Result {
        match self {
            Line::Selected(count) => write!(f, "selected {count}"),
            Line::Absent(tag) => write!(f, "{tag} absent"),
            Line::Of(nation) => {
                let Nation { stored, initial, latest, entries, .. } = nation;
                write!(f, "{stored} {initial} {latest} {} {}", entries.len(), living::state(nation))
            }
        }
    }
}

impl Line {
    fn object(&self) -> Object {
        match self {
            Line::Selected(count) => Object::new().plain("selected", count),
            Line::Absent(tag) => Object::new().text("tag", tag).text("state", "absent"),
            Line::Of(nation) => Object::new()
                .text("tag", nation.stored)
                .text("initial", nation.initial)
                .text("latest", nation.latest)
                .plain("entries", nation.entries.len())
                .text("state", living::state(nation)),
        }
    }
}

#[cfg(test)]
mod tests;
