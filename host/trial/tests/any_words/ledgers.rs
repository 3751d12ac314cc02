//! Ledgers.

use chronicle::raw::check;
use chronicle_trial::model::ledger;
use chronicle_trial::pack::{pack, Campaign, LedgerName, Point};
use chronicle_trial::rows::ledger_words;
use chronicle_trial::trial::{ledger_told, ledgers_told, rows_told};

use super::*;

/// A record with the ledgers of a few tags; of some a byte is missing.
fn accounts(random: &mut Random) -> (Campaign, Vec<u8>) {
    let years = [1, 1443, 1444, 1445, 9998];
    let mut point = || Point { year: random.pick(&years), value: random.next() as i32 };
    let mut name = |tag| LedgerName { tag, points: (0..3).map(|_| point()).collect() };
    let ledger = [TAGS[0], TAGS[1], TAGS[0], TAGS[2]].map(&mut name).to_vec();
    let campaign = Campaign { start: DATES[1], current: DATES[3], ledger, ..Campaign::default() };
    let mut record = pack(&campaign);
    record.truncate(record.len() - usize::from(random.below(8) == 0));
    (campaign, record)
}

/// The ledger of each nation, unless all is refused.
fn ledgers(
    rows: Chronicle<'_>,
    campaign: &Campaign,
    record: &[u8],
) -> Result<Vec<Vec<u32>>, Refusal> {
    match nations_told(rows.nations, rows.entries) {
        _ if check(record).is_err() => Err(Refusal::SizesDisagree),
        Some(nations) => Ok(nations.iter().map(|n| ledger_words(&ledger(campaign, n))).collect()),
        None => Err(Refusal::NotWellShaped),
    }
}

/// One nation that may be past the list, and all of them, with room that may be too short.
fn told(random: &mut Random, rows: Chronicle<'_>, outcomes: &mut [Outcomes; 2]) {
    let (campaign, record) = accounts(random);
    let all = ledgers(rows, &campaign, &record);
    let nation = random.below(rows.nations.len() / 5 + 2);
    let one = |all: &Vec<Vec<u32>>| all.get(nation).cloned().ok_or(Refusal::NoSuchNation);
    let one = all.as_ref().map_err(|&refusal| refusal).and_then(one);
    let counted = one.as_ref().map(|words| words.len() / 3).map_err(|&refusal| refusal);
    let near = |random: &mut Random, need: usize| (need + random.below(5)).saturating_sub(2);

    let length = near(random, one.as_ref().map_or(0, Vec::len));
    let expected = lent(&one, length, &mut outcomes[0]);
    let outcome = ledger_told(rows, &record, nation, length, expected.as_deref().map_err(|&r| r))
        .and(rows_told(rows, &record, nation, length, counted.map(|count| count.min(length))));
    assert_eq!(outcome, Ok(()), "{rows:?} {campaign:?}");

    let counts = all.iter().flatten().map(|words| words.len() as u64 / 3).collect::<Vec<_>>();
    let all = all.map(|all| all.concat());
    let cells = [all.as_ref().map_or(0, Vec::len), counts.len()].map(|need| near(random, need));
    let expected = match lent(&all, cells[0], &mut outcomes[1]) {
        Ok(_) if cells[1] < counts.len() => Err(Refusal::NoRoom(None)),
        other => other,
    };
    let expected = expected.as_deref().map(|words| (words, &counts[..])).map_err(|&r| r);
    let outcome = ledgers_told(rows, &record, cells, expected);
    assert_eq!(outcome, Ok(()), "{rows:?} {campaign:?}");
}

#[test]
fn any_words_for_ledgers() {
    let mut random = Random::new(15);
    let mut outcomes = [Outcomes::new(), Outcomes::new()];
    for _ in 0..20_000 {
        let [nations, entries] = [words(&mut random, 40), words(&mut random, 40)];
        told(&mut random, Chronicle { nations: &nations, entries: &entries }, &mut outcomes);
    }
    assert!(outcomes.iter().all(|times| times[&11] > 10_000 && times[&3] > 1_000), "{outcomes:?}");
}

#[test]
fn nearly_a_chronicle_for_ledgers() {
    let mut random = Random::new(16);
    let mut outcomes = [Outcomes::new(), Outcomes::new()];
    for _ in 0..20_000 {
        let [nations, entries] = nearly(&mut random);
        told(&mut random, Chronicle { nations: &nations, entries: &entries }, &mut outcomes);
    }
    for (outcomes, expected) in
        outcomes.iter().zip([&[0, 1, 3, 10, 11, 13][..], &[0, 1, 3, 10, 11]])
    {
        assert_eq!(outcomes.keys().copied().collect::<Vec<u8>>(), expected, "{outcomes:?}");
        assert!(outcomes.values().all(|&times| times > 500), "{outcomes:?}");
    }
}
