//! A record with the damage that can be done to it.

use chronicle::layout::Counts;
use chronicle::Refusal;

use crate::generate::Random;

use super::Damage;

/// The numbers aimed at, those that others hide more than once.
const AIMS: &[u8] = &[1, 2, 3, 4, 4, 5, 5, 6, 6, 6, 7, 7, 7, 7, 8, 8, 8, 8, 9, 9, 9, 9];

/// An accepted record with all that can be written into its fields.
#[derive(Clone, Debug)]
pub struct Target {
    record: Vec<u8>,
    writes: [Vec<Damage>; 9],
}

impl Target {
    /// Looks up every field of the record, which must be an accepted one.
    ///
    /// ```
    /// use chronicle::Refusal;
    /// use chronicle_trial::{damage::Target, sample};
    ///
    /// let target = Target::new(sample::WORKED.to_vec());
    /// assert!(!target.aimed_at(Refusal::BadDate).is_empty());
    /// assert!(target.aimed_at(Refusal::LedgerYear).is_empty());
    /// ```
    pub fn new(record: Vec<u8>) -> Target {
        let mut target = Target { record, writes: Default::default() };
        let head = target.record.first_chunk().expect("a record has a head");
        let sections = Counts::read(head).sections();
        target.add_head();
        target.add_countries(&sections);
        target.add_provinces(&sections);
        target.add_wars(&sections);
        target.add_ledger(&sections);
        target.add_strings(sections.strings);
        target
    }

    /// The undamaged record.
    ///
    /// ```
    /// use chronicle_trial::{damage::Target, sample};
    ///
    /// assert_eq!(Target::new(sample::WORKED.to_vec()).record(), sample::WORKED);
    /// ```
    pub fn record(&self) -> &[u8] {
        &self.record
    }

    /// The writes into fields that can earn this refusal; many of them just miss it.
    ///
    /// ```
    /// use chronicle::Refusal;
    /// use chronicle_trial::{damage::Target, sample};
    ///
    /// let target = Target::new(sample::WORKED.to_vec());
    /// assert!(target.aimed_at(Refusal::BadTag).len() > 100);
    /// ```
    pub fn aimed_at(&self, refusal: Refusal) -> &[Damage] {
        self.writes.get(usize::from(refusal.number()) - 1).map_or(&[], Vec::as_slice)
    }

    /// Every write, every cut, some extensions and every exchange of neighbours.
    ///
    /// ```
    /// use chronicle_trial::{damage::Target, sample};
    ///
    /// assert!(Target::new(sample::WORKED.to_vec()).sweep().count() > 1_000);
    /// ```
    pub fn sweep(&self) -> impl Iterator<Item = Damage> + '_ {
        let length = self.record.len();
        let cuts = (0..length).map(|length| Damage::Cut { length });
        let extensions = (1..=20).map(|bytes| Damage::Extend { bytes, with: 0 });
        let swaps = (1..length).map(|second| Damage::Swap { first: second - 1, second });
        let writes = self.writes.iter().flatten().copied();
        writes.chain(cuts).chain(extensions).chain(swaps)
    }

    /// A write; what is found late is aimed at more often, as earlier refusals hide it.
    ///
    /// ```
    /// use chronicle_trial::{damage::Target, generate::Random, sample};
    ///
    /// let target = Target::new(sample::WORKED.to_vec());
    /// let mut record = target.record().to_vec();
    /// target.draw_write(&mut Random::new(1)).apply(&mut record);
    /// assert_eq!(record.len(), 103);
    /// ```
    pub fn draw_write(&self, random: &mut Random) -> Damage {
        loop {
            // Small records lack some fields; the head alone always has others.
            let aim = Refusal::from_number(random.pick(AIMS)).expect("an aim is a refusal");
            let writes = self.aimed_at(aim);
            if !writes.is_empty() {
                return random.pick(writes);
            }
        }
    }

    /// Damage that knows nothing of fields.
    ///
    /// ```
    /// use chronicle_trial::{damage::Target, generate::Random, sample};
    ///
    /// let target = Target::new(sample::WORKED.to_vec());
    /// let mut random = Random::new(1);
    /// let mut differs = || {
    ///     let mut record = sample::WORKED.to_vec();
    ///     target.draw_blind(&mut random).apply(&mut record);
    ///     record != sample::WORKED
    /// };
    /// assert!((0..10).any(|_| differs()));
    /// ```
    pub fn draw_blind(&self, random: &mut Random) -> Damage {
        let length = self.record.len();
        match random.below(8) {
            0 => Damage::Cut { length: random.below(length) },
            1 => Damage::Extend { bytes: 1 + random.below(9), with: random.byte() },
            2 | 3 => Damage::Swap { first: random.below(length), second: random.below(length) },
            4 | 5 => self.flip(random.below(length), random.below(8)),
            _ => Damage::Write {
                offset: random.below(length),
                width: 1,
                value: u32::from(random.byte()),
            },
        }
    }

    pub(super) fn flip(&self, offset: usize, bit: usize) -> Damage {
        Damage::Write { offset, width: 1, value: u32::from(self.record[offset]) ^ 1 << bit }
    }

    pub(super) fn add(&mut self, aim: Refusal, offset: usize, width: usize, values: &[u32]) {
        let writes = &mut self.writes[usize::from(aim.number()) - 1];
        writes.extend(values.iter().map(|&value| Damage::Write { offset, width, value }));
    }

    pub(super) fn number_at(&self, offset: usize, width: usize) -> u32 {
        let bytes = &self.record[offset..offset + width];
        let low_first = |number, &byte: &u8| number << 8 | u32::from(byte);
        bytes.iter().rev().fold(0, low_first)
    }
}

#[cfg(test)]
mod tests {
    use super::*;
    use crate::generate::{campaign, Knobs};
    use crate::pack::pack;
    use crate::reference::refusal_number;

    #[test]
    fn writes_reach_the_number_they_aim_at_and_also_miss_it() {
        let mut random = Random::new(5);
        let mut hits = [0; 9];
        let mut misses = [0; 9];
        for _ in 0..40 {
            let target = Target::new(pack(&campaign(&mut random, &Knobs::small())));
            for aim in Refusal::ALL.into_iter().filter(|aim| aim.is_of_record()) {
                for damage in target.aimed_at(aim) {
                    let mut record = target.record().to_vec();
                    damage.apply(&mut record);
                    let number = refusal_number(&record);
                    let place = usize::from(aim.number()) - 1;
                    hits[place] += usize::from(number == aim.number());
                    misses[place] += usize::from(number == 0);
                }
            }
        }
        assert!(hits.iter().all(|&hits| hits > 100), "{hits:?}");
        // No other opening passes, so only number 1 is never just missed.
        assert!(misses[1..].iter().all(|&misses| misses > 30), "{misses:?}");
    }
}
