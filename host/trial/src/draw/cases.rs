//! An endless seeded stream of records: good, nearly good, damaged and made of random bytes.

use std::fmt;

use crate::damage::{Damage, Target};
use crate::generate::{campaign, Knobs, Random};
use crate::pack::pack;

/// So many cases are made from one campaign before the next is drawn.
const CASES_PER_CAMPAIGN: usize = 256;

/// What a case started from.
#[derive(Clone, Copy, Debug, PartialEq, Eq)]
pub enum Origin {
    /// A drawn campaign's record.
    Campaign,
    /// A head without rows, its flags and dates drawn anew.
    BareHead,
    /// The head of a drawn campaign, with random bytes behind it.
    RandomRows,
    /// Random bytes.
    RandomBytes,
}

/// One record of the stream, and what was done to it.
#[derive(Clone, Debug)]
#[allow(missing_docs)]
pub struct Case {
    pub record: Vec<u8>,
    pub origin: Origin,
    pub damage: Vec<Damage>,
}

impl fmt::Display for Case {
    fn fmt(&self, f: &mut fmt::Formatter<'_>) -> fmt::Result {
        let origin = match self.origin {
            Origin::Campaign => "campaign",
            Origin::BareHead => "bare head",
            Origin::RandomRows => "random rows",
            Origin::RandomBytes => "random bytes",
        };
        f.write_str(origin)?;
        for damage in &self.damage {
            write!(f, "; {damage}")?;
        }
        Ok(())
    }
}

/// The stream.
#[derive(Clone, Debug)]
pub struct Cases {
    random: Random,
    target: Target,
    left: usize,
    case: Case,
}

impl Cases {
    /// A stream that depends on the seed alone.
    ///
    /// ```
    /// use chronicle_trial::cases::Cases;
    ///
    /// let (mut one, mut other) = (Cases::new(1), Cases::new(1));
    /// assert_eq!(one.draw().record, other.draw().record);
    /// ```
    pub fn new(seed: u64) -> Cases {
        let mut random = Random::new(seed);
        Cases {
            target: draw_target(&mut random),
            random,
            left: CASES_PER_CAMPAIGN,
            case: Case { record: Vec::new(), origin: Origin::Campaign, damage: Vec::new() },
        }
    }

    /// The next case, which is lent until the one after it is drawn.
    ///
    /// ```
    /// use chronicle_trial::{cases::Cases, reference::refusal_number};
    ///
    /// let mut cases = Cases::new(1);
    /// let mut accepted = 0;
    /// for _ in 0..1_000 {
    ///     accepted += usize::from(refusal_number(&cases.draw().record) == 0);
    /// }
    /// assert!((100..900).contains(&accepted));
    /// ```
    pub fn draw(&mut self) -> &Case {
        if self.left == 0 {
            self.target = draw_target(&mut self.random);
            self.left = CASES_PER_CAMPAIGN;
        }
        self.left -= 1;
        self.case.damage.clear();
        self.case.record.clear();
        self.draw_origin();
        &self.case
    }

    fn draw_origin(&mut self) {
        match self.random.below(32) {
            0 => self.random_bytes(),
            1 => self.random_rows(),
            2 => self.bare_head(),
            3 => self.damaged(0, 0),
            4..=13 => self.damaged(1, 0),
            14..=23 => self.damaged(2, 0),
            24..=25 => self.damaged(3, 0),
            26..=27 => self.damaged(1, 1),
            28 => self.damaged(0, 2),
            _ => self.damaged(0, 1),
        }
    }

    fn damaged(&mut self, writes: usize, blind: usize) {
        let Case { record, damage, .. } = &mut self.case;
        record.extend_from_slice(self.target.record());
        damage.extend((0..writes).map(|_| self.target.draw_write(&mut self.random)));
        damage.extend((0..blind).map(|_| self.target.draw_blind(&mut self.random)));
        for damage in damage {
            damage.apply(record);
        }
        self.case.origin = Origin::Campaign;
    }

    fn random_bytes(&mut self) {
        self.case.origin = Origin::RandomBytes;
        self.fill(200);
        if self.random.below(2) == 0 {
            self.open_well();
        }
    }

    fn random_rows(&mut self) {
        self.case.origin = Origin::RandomRows;
        self.case.record.extend_from_slice(&self.target.record()[..44]);
        self.fill(160);
    }

    /// A head that needs no rows, so that its own fields decide.
    fn bare_head(&mut self) {
        self.case.origin = Origin::BareHead;
        let record = &mut self.case.record;
        record.extend_from_slice(&self.target.record()[..14]);
        record.resize(44, 0);
        for _ in 0..self.random.below(3) {
            let damage = Damage::Write {
                offset: 3 + self.random.below(11),
                width: 1,
                value: u32::from(self.random.byte()),
            };
            damage.apply(record);
            self.case.damage.push(damage);
        }
    }

    fn fill(&mut self, most: usize) {
        for _ in 0..self.random.below(most + 1) {
            self.case.record.push(self.random.byte());
        }
    }

    /// Chance alone would never write `ATL` and version 1.
    fn open_well(&mut self) {
        for (byte, good) in self.case.record.iter_mut().zip(b"ATL\x01\x00") {
            *byte = *good;
        }
    }
}

fn draw_target(random: &mut Random) -> Target {
    let knobs = random.pick(&[Knobs::small(), Knobs::adversarial()]);
    Target::new(pack(&campaign(random, &knobs)))
}
