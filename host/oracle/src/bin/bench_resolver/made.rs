//! Lists of nations that no record gave: as many switches as wanted.

use chronicle_trial::generate::Random;
use chronicle_trial::pack::{Date, Tag};
use chronicle_trial::rows::{Entry, Kind, Nation};

/// In each list.
pub const NATIONS: usize = 2_000;

/// Switches spread over the nations, each nation's by date.
pub fn made(switches: usize) -> Vec<Nation> {
    let mut random = Random::new(switches as u64);
    let mut nation = |number: usize| {
        let own = switches / NATIONS + usize::from(number < switches % NATIONS);
        let target = |random: &mut Random| Kind::Switch(nth_tag(random.below(NATIONS)));
        let mut entries: Vec<Entry> = (0..own)
            .map(|_| Entry { date: any_day(&mut random), kind: target(&mut random) })
            .collect();
        entries.sort_by_key(|entry| entry.date);
        let tag = nth_tag(number);
        Nation { initial: tag, latest: tag, stored: tag, entries }
    };
    (0..NATIONS).map(&mut nation).collect()
}

fn nth_tag(number: usize) -> Tag {
    [number / 625, number / 25 % 25, number % 25].map(|letter| b'A' + letter as u8)
}

fn any_day(random: &mut Random) -> Date {
    let [years, months, days] = [400, 12, 28].map(|bound| random.below(bound));
    ((1445 + years) * 10_000 + (1 + months) * 100 + 1 + days) as Date
}
