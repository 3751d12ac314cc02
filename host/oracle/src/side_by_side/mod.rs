//! The Rust's answers and the library's, side by side, for somebody who wants to see what differs.

mod answers;
mod record;

pub use answers::{answers, Section};
pub use record::told;

use std::fmt::Write;

/// Rows shown of a section from its first difference on.
const SHOWN: usize = 12;

/// Rows shown before the first difference.
const BEFORE: usize = 2;

/// The sections that differ, each in two columns; a row that differs is marked. Empty if none does.
///
/// ```
/// use chronicle_oracle::side_by_side::{columns, Section};
///
/// let [one, two] = ["14460101 1 ENG FRA", "14470101 2 FRA ENG"].map(String::from);
/// let section = Section { name: "changes", theirs: vec![one.clone(), two], ours: vec![one] };
/// assert_eq!(
///     columns(&[section]),
///     "changes               the Rust            the library\n\
///     \x20                     14460101 1 ENG FRA  14460101 1 ENG FRA\n\
///     \x20 differs             14470101 2 FRA ENG  -\n"
/// );
/// ```
pub fn columns(sections: &[Section]) -> String {
    let mut text = String::new();
    sections.iter().for_each(|section| section_columns(section, &mut text));
    text
}

fn section_columns(section: &Section, text: &mut String) {
    let Section { name, theirs, ours } = section;
    let rows = theirs.len().max(ours.len());
    let differs = |row: &usize| theirs.get(*row) != ours.get(*row);
    let Some(first) = (0..rows).find(differs) else { return };
    let shown = first.saturating_sub(BEFORE)..rows.min(first + SHOWN);
    let cell = |lines: &[String], row: usize| lines.get(row).cloned().unwrap_or("-".into());
    let longest = shown.clone().map(|row| cell(theirs, row).chars().count()).max();
    let width = longest.unwrap_or(0).max("the Rust".len());
    let mut line = |mark: &str, left: &str, right: &str| {
        let _ = writeln!(text, "{}", format!("{mark:<20}  {left:<width$}  {right}").trim_end());
    };
    line(name, "the Rust", "the library");
    for row in shown.clone() {
        let mark = if differs(&row) { "  differs" } else { "" };
        line(mark, &cell(theirs, row), &cell(ours, row));
    }
    if shown.end < rows {
        let _ = writeln!(text, "  and {} rows more of {rows}", rows - shown.end);
    }
}
