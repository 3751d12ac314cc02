//! Pages near each limit.

use chronicle_trial::adversary::selections::selection;
use chronicle_trial::extremes::pages::{one_slot, padded, switched, to_and_fro, whole_page};
use chronicle_trial::pack::{pack, Campaign, Tag};
use chronicle_trial::sample::worked;

use super::Paged;
use crate::rust::Rust;
use crate::seen::Seen;

/// Just below, at and just above the limit of changes, of entries and of a record's bytes; and large
/// records of few and of many nations.
fn campaigns() -> Vec<Campaign> {
    let mut campaigns: Vec<Campaign> = [3_999, 4_000, 4_001].map(to_and_fro).to_vec();
    let entries = [(2_499, 1), (2_499, 2), (2_499, 3), (2_500, 0), (2_500, 1), (2_501, 0)];
    let switches = [(0, 4_999), (0, 5_001), (1, 4_997), (1, 4_998), (1, 4_999)];
    let pairs = entries.into_iter().chain(switches);
    campaigns.extend(pairs.map(|(changes, times)| switched(one_slot(changes), times)));
    campaigns.extend([4_999, 5_000, 5_001].map(|times| switched(to_and_fro(0), times)));
    campaigns.extend([65_535, 65_536, 65_537].map(|bytes| padded(worked(), bytes)));
    campaigns.extend([300, 600, 1_200, 2_000].map(whole_page));
    campaigns
}

/// As many bytes of selection as there may be, one tag less and one more, and one byte less and one
/// more; and few.
fn selections(campaign: &Campaign) -> Vec<Vec<u8>> {
    let stored = campaign.countries.iter().rev().map(|country| country.tag);
    let tags: Vec<Tag> = stored.chain([*b"QQQ"]).collect();
    let cycled = |count| selection(&tags.iter().cycle().take(count).copied().collect::<Vec<_>>());
    let mut selections = [0, 1, tags.len(), 16_383, 16_384, 16_385].map(cycled).to_vec();
    let whole = cycled(16_384);
    selections.extend([whole[1..].to_vec(), [&whole[..], b"Q"].concat()]);
    selections
}

/// Compares pages near each limit, and says how many; each goes through what `others` do as well.
///
/// ```
/// use chronicle_oracle::{paging::near_limits, rust::Rust, seen::Seen};
///
/// let mut seen = Seen::default();
/// assert_eq!(near_limits(Rust::of, &mut seen, |_, _, _| Ok(())), Ok(24 * 8));
/// ```
pub fn near_limits(
    load: impl Fn(&Campaign) -> Rust,
    seen: &mut Seen,
    mut others: impl FnMut(Paged<'_>, &[u8], &mut Seen) -> Result<(), String>,
) -> Result<usize, String> {
    let mut pages = 0;
    for (number, campaign) in campaigns().iter().enumerate() {
        let (rust, record) = (load(campaign), pack(campaign));
        let paged = Paged { record: &record, rust: &rust };
        for selection in selections(campaign) {
            let what = |error| format!("campaign {number} near a limit of pages: {error}");
            paged.compare(&selection, seen).map_err(what)?;
            others(paged, &selection, seen).map_err(what)?;
            pages += 1;
        }
    }
    Ok(pages)
}
