//! Who lives at the end.

use chronicle::{EntryKind, Nation};

/// Whether a nation lives at the end, as the page has it: the last that befell it, switches aside, was not that it
/// was annexed.
pub fn is_living(nation: &Nation) -> bool {
    let mut lives =
        nation.entries.iter().filter(|entry| !matches!(entry.kind, EntryKind::TagSwitch(_)));
    lives.next_back().is_none_or(|last| last.kind != EntryKind::Annexed)
}

/// The same in a word.
pub fn state(nation: &Nation) -> &'static str {
    if is_living(nation) {
        "living"
    } else {
        "annexed"
    }
}
