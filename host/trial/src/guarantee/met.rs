//! How often each premise of the guarantee was met: a run that never met one says nothing about it.

use std::fmt;

/// What can be met of a nation and a day. `Alone`: what the nation wears is no other's first tag
/// or target.
#[derive(Clone, Copy, Debug, PartialEq, Eq)]
#[allow(missing_docs)]
pub enum Premise {
    NationOnADay,
    OnTheStart,
    HeldThenAndNow,
    HeldThenOnly,
    HoldsNowOnly,
    HeldNeither,
    Appeared,
    Annexed,
    BothCounted,
    AnnexedTooEarly,
    LifeToCome,
    ChangeThatDay,
    SlotOfNobody,
    NotAlone,
    Alone,
    AloneSwitched,
    AloneHoldingNothing,
    AloneAttacks,
    AloneDefends,
    AloneJoinsUnderOther,
    AloneJoinsOnItsSwitch,
    AloneJoinsBeforeItsSwitch,
    AloneJoinsTwice,
    NotAloneJoins,
}

/// Every premise, with its name in a report.
pub const PREMISES: [(Premise, &str); 24] = [
    (Premise::NationOnADay, "guarantee: a nation on a day"),
    (Premise::OnTheStart, "guarantee: the day is the start"),
    (Premise::HeldThenAndNow, "guarantee: holds on the start and on the day"),
    (Premise::HeldThenOnly, "guarantee: holds on the start, not on the day"),
    (Premise::HoldsNowOnly, "guarantee: holds on the day, not on the start"),
    (Premise::HeldNeither, "guarantee: holds on neither"),
    (Premise::Appeared, "guarantee: an Appeared is counted"),
    (Premise::Annexed, "guarantee: an Annexed is counted"),
    (Premise::BothCounted, "guarantee: both are counted"),
    (Premise::AnnexedTooEarly, "guarantee: an Annexed up to the start is not counted"),
    (Premise::LifeToCome, "guarantee: an Appeared or Annexed comes later"),
    (Premise::ChangeThatDay, "guarantee: a change on the day"),
    (Premise::SlotOfNobody, "guarantee: a slot of nobody on the day"),
    (Premise::NotAlone, "guarantee: the tag worn is another's too"),
    (Premise::Alone, "guarantee: worn alone"),
    (Premise::AloneSwitched, "guarantee: worn alone, after a switch"),
    (Premise::AloneHoldingNothing, "guarantee: worn alone, holding nothing"),
    (Premise::AloneAttacks, "guarantee: worn alone, joins as attacker"),
    (Premise::AloneDefends, "guarantee: worn alone, joins as defender"),
    (Premise::AloneJoinsUnderOther, "guarantee: worn alone, joins, stored under another tag"),
    (Premise::AloneJoinsOnItsSwitch, "guarantee: worn alone, joins on the day of the switch"),
    (Premise::AloneJoinsBeforeItsSwitch, "guarantee: worn alone, joins the day before a switch"),
    (Premise::AloneJoinsTwice, "guarantee: worn alone, joins twice that day"),
    (Premise::NotAloneJoins, "guarantee: worn by another too, joins"),
];

/// How often each was met.
#[derive(Clone, Copy, Debug, Default, PartialEq, Eq)]
pub struct Met([usize; PREMISES.len()]);

impl Met {
    /// Counts a premise if it was met.
    ///
    /// ```
    /// use chronicle_trial::guarantee::{Met, Premise};
    ///
    /// let mut met = Met::default();
    /// met.add(Premise::Alone, true);
    /// met.add(Premise::Alone, false);
    /// assert_eq!(met.times(Premise::Alone), 1);
    /// ```
    pub fn add(&mut self, premise: Premise, met: bool) {
        self.0[premise as usize] += usize::from(met);
    }

    /// How often a premise was met.
    ///
    /// ```
    /// use chronicle_trial::guarantee::{Met, Premise};
    ///
    /// assert_eq!(Met::default().times(Premise::Appeared), 0);
    /// ```
    pub fn times(&self, premise: Premise) -> usize {
        self.0[premise as usize]
    }

    /// Each premise's name, and how often it was met.
    ///
    /// ```
    /// use chronicle_trial::guarantee::{Met, PREMISES};
    ///
    /// assert_eq!(Met::default().all().count(), PREMISES.len());
    /// ```
    pub fn all(&self) -> impl Iterator<Item = (&'static str, usize)> + '_ {
        PREMISES.iter().map(|&(premise, name)| (name, self.times(premise)))
    }

    /// The names of those that never were.
    ///
    /// ```
    /// use chronicle_trial::guarantee::Met;
    ///
    /// assert!(Met::default().never().contains(&"guarantee: worn alone"));
    /// ```
    pub fn never(&self) -> Vec<&'static str> {
        self.all().filter(|&(_, times)| times == 0).map(|(name, _)| name).collect()
    }
}

impl fmt::Display for Met {
    fn fmt(&self, f: &mut fmt::Formatter<'_>) -> fmt::Result {
        self.all().try_for_each(|(name, times)| writeln!(f, "{times:>12}  {name}"))
    }
}

#[cfg(test)]
mod tests {
    use super::*;

    #[test]
    fn each_premise_has_its_place() {
        for (place, (premise, _)) in PREMISES.into_iter().enumerate() {
            assert_eq!(premise as usize, place);
        }
    }
}
