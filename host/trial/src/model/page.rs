//! The page (Rules 9).

use chronicle::Refusal;

use super::{chronicle, Chronicle};
use crate::pack::Tag;
use crate::reference::check_tag;
use crate::rows::{Kind, Nation};
use crate::unpack::unpack;

/// The most bytes that a page's record may have, and that its selection may have.
pub const MOST_BYTES: usize = 65_536;
/// The most changes that a page's record may have.
pub const MOST_CHANGES: usize = 4_000;
/// The most entries that the listed nations of a page's record may have together.
pub const MOST_ENTRIES: usize = 5_000;

/// The page of a record for a selection, or why there is none; nothing is said of room.
///
/// ```
/// use chronicle::Refusal;
/// use chronicle_trial::{model::page, sample};
///
/// let expected = b"selected 2\nGBR ENG GBR 3 living\nQQQ absent\n";
/// assert_eq!(page(sample::WORKED, b"GBR\nQQQ\n").unwrap(), expected);
/// assert_eq!(page(sample::WORKED, b"GBR"), Err(Refusal::BadQuestion));
/// assert_eq!(page(b"ATL", b"GBR"), Err(Refusal::NotARecord));
/// assert_eq!(page(b"ATL", &[10; 65_537]), Err(Refusal::NoRoom(None)));
/// ```
pub fn page(record: &[u8], selection: &[u8]) -> Result<Vec<u8>, Refusal> {
    if record.len() > MOST_BYTES || selection.len() > MOST_BYTES {
        return Err(Refusal::NoRoom(None));
    }
    let campaign = unpack(record)?;
    let tags = selected(selection).ok_or(Refusal::BadQuestion)?;
    page_of(&chronicle(&campaign), &tags)
}

/// The tags of a selection, each with a line feed behind it; none if anything else stands there.
///
/// ```
/// use chronicle_trial::model::selected;
///
/// assert_eq!(selected(b"GBR\n---\n"), Some(vec![*b"GBR", *b"---"]));
/// assert_eq!(selected(b""), Some(vec![]));
/// assert_eq!(selected(b"\n"), None);
/// ```
pub fn selected(selection: &[u8]) -> Option<Vec<Tag>> {
    let (lines, rest) = selection.as_chunks::<4>();
    let tag = |&[a, b, c, end]: &[u8; 4]| {
        (end == b'\n' && check_tag([a, b, c]).is_ok()).then_some([a, b, c])
    };
    lines.iter().map(tag).collect::<Option<_>>().filter(|_| rest.is_empty())
}

/// The page of a chronicle, unless it is more than a page holds.
///
/// ```
/// use chronicle_trial::{model::{chronicle, page_of}, sample};
///
/// let page = page_of(&chronicle(&sample::worked()), &[]);
/// assert_eq!(page.unwrap(), b"selected 0\n");
/// ```
pub fn page_of(chronicle: &Chronicle, tags: &[Tag]) -> Result<Vec<u8>, Refusal> {
    let entries: usize = chronicle.nations.iter().map(|nation| nation.entries.len()).sum();
    if chronicle.changes.len() > MOST_CHANGES || entries > MOST_ENTRIES {
        return Err(Refusal::NoRoom(None));
    }
    let mut page = Vec::new();
    put_line(&mut page, &[b"selected", tags.len().to_string().as_bytes()]);
    for tag in tags {
        match chronicle.nations.iter().find(|nation| nation.stored == *tag) {
            Some(nation) => put_nation(&mut page, nation),
            None => put_line(&mut page, &[tag, b"absent"]),
        }
    }
    Ok(page)
}

fn put_nation(page: &mut Vec<u8>, nation: &Nation) {
    let Nation { initial, latest, stored, entries } = nation;
    let fate = if is_living(nation) { &b"living"[..] } else { b"annexed" };
    put_line(page, &[stored, initial, latest, entries.len().to_string().as_bytes(), fate]);
}

/// What befell it last, switches aside, was not that it lost its last slot.
fn is_living(nation: &Nation) -> bool {
    let mut kinds = nation.entries.iter().map(|entry| entry.kind);
    kinds.rfind(|kind| !matches!(kind, Kind::Switch(_))) != Some(Kind::Annexed)
}

fn put_line(page: &mut Vec<u8>, fields: &[&[u8]]) {
    page.extend(fields.join(&b' '));
    page.push(b'\n');
}
