//! The guarantee on what the library wrote, and that a falsified row is noticed.

use chronicle::raw::Chronicle;
use chronicle::Refusal;
use chronicle_trial::generate::Random;
use chronicle_trial::guarantee::{judge, tried, Met, Premise, Written};
use chronicle_trial::model::nations_told;
use chronicle_trial::pack::{pack, Campaign, War, WarEvent};
use chronicle_trial::rows::{entry_words, nation_words, tag_word, Entry, Kind};
use chronicle_trial::{extremes, sample, wars};

type Answer = Result<Option<[u32; 2]>, Refusal>;

/// A campaign with what the library wrote for it.
struct Made {
    campaign: Campaign,
    written: Written,
}

impl Made {
    fn of(campaign: Campaign) -> Made {
        let written = Written::of(&pack(&campaign)).expect("it is accepted");
        Made { campaign, written }
    }

    /// The resolver that is lent these rows; `alter` may change its answers.
    fn judged(&self, written: &Written, alter: fn(Answer) -> Answer) -> (Result<(), String>, Met) {
        let rows = Chronicle { nations: &written.nations, entries: &written.entries };
        let resolve = |day, tag| alter(rows.resolve_at(day, tag, day));
        let mut met = Met::default();
        let (random, most) = (&mut Random::new(1), usize::MAX);
        (judge(&self.campaign, written, &resolve, most, random, &mut met), met)
    }

    fn noticed(&self, falsify: impl FnOnce(&mut Written)) -> bool {
        let mut written = self.written.clone();
        falsify(&mut written);
        self.judged(&written, |answer| answer).0.is_err()
    }
}

/// ENG and GBR join a war on the day of the switch and the day before it.
fn worked() -> Made {
    let mut campaign = sample::worked();
    let event = |date, tag: &[u8; 3]| WarEvent { date, kind: 0, tag: *tag };
    let events = [14480531, 14480601].map(|day| [event(day, b"ENG"), event(day, b"GBR")]);
    campaign.wars = vec![War { events: events.concat() }];
    Made::of(campaign)
}

fn drawn() -> impl Iterator<Item = Made> {
    let mut random = Random::new(1648);
    std::iter::repeat_with(move || Made::of(wars::campaign(&mut random))).take(2_000)
}

#[test]
fn it_holds_and_every_premise_is_met() {
    let (mut random, mut met) = (Random::new(1649), Met::default());
    for _ in 0..5_000 {
        let campaign = wars::campaign(&mut random);
        let record = pack(&campaign);
        let outcome = tried(&record, &campaign, usize::MAX, &mut random, &mut met);
        assert_eq!(outcome, Ok(()), "{campaign:#?}");
    }
    assert_eq!(met.never(), [] as [&str; 0]);
}

/// ENG till the end of May, GBR from June on: two of the four bookings are owed.
#[test]
fn worked_record() {
    let made = worked();
    let (outcome, met) = made.judged(&made.written, |answer| answer);
    assert_eq!(outcome, Ok(()));
    assert_eq!(met.times(Premise::AloneAttacks), 2);
    assert_eq!(met.times(Premise::AloneJoinsOnItsSwitch), 1);
    assert_eq!(met.times(Premise::AloneJoinsBeforeItsSwitch), 1);
    let fra = tag_word(*b"FRA");
    for (row, owed) in [(0, true), (1, false), (2, false), (3, true)] {
        assert_eq!(made.noticed(|written| written.bookings[3 * row + 2] = fra), owed, "{row}");
    }
    assert!(made.noticed(|written| written.bookings[0] = 1));
    assert!(made.noticed(|written| written.bookings.truncate(9)));
    assert!(made.noticed(|written| written.bookings.clear()));
    assert!(made.noticed(|written| written.changes.clear()));
    assert!(made.noticed(|written| written.changes.truncate(4)));
    assert!(made.noticed(|written| written.changes[1] = 9));
    assert!(made.noticed(|written| written.entries[0] += 1));
    assert!(made.noticed(|written| written.nations[2] = fra));
}

/// Any stored tag of a booking that is owed, and no other.
#[test]
fn a_falsified_booking_is_noticed() {
    let mut noticed = 0;
    for made in drawn() {
        let (outcome, met) = made.judged(&made.written, |answer| answer);
        assert_eq!(outcome, Ok(()));
        let owed = met.times(Premise::AloneAttacks) + met.times(Premise::AloneDefends);
        let rows = made.written.bookings.len() / 3;
        let found = (0..rows).filter(|row| made.noticed(|w| w.bookings[3 * row + 2] ^= 1)).count();
        assert_eq!(found, owed, "{:#?}", made.campaign);
        noticed += found;
    }
    assert!(noticed > 1_000, "{noticed}");
}

/// Every Appeared and every Annexed after the start has a day on which it is missed, or is one too
/// many.
#[test]
fn a_falsified_entry_is_noticed() {
    let mut noticed = 0;
    for made in drawn() {
        let Written { nations, entries, .. } = &made.written;
        let told = nations_told(nations, entries).expect("they are well shaped");
        for (number, place) in counted(&made, &told) {
            let mut fewer = told.clone();
            fewer[number].entries.remove(place);
            let mut twice = told.clone();
            twice[number].entries.insert(place, told[number].entries[place]);
            for falsified in [fewer, twice] {
                assert!(made.noticed(|written| {
                    written.nations = nation_words(&falsified);
                    written.entries = entry_words(&falsified);
                }));
                noticed += 1;
            }
        }
    }
    assert!(noticed > 1_000, "{noticed}");
}

/// The nation and the place of each entry that the living equation counts on some day.
fn counted(made: &Made, nations: &[chronicle_trial::rows::Nation]) -> Vec<(usize, usize)> {
    let start = made.campaign.start;
    let counts = |e: &Entry| !matches!(e.kind, Kind::Switch(_)) && e.date > start;
    let mut all = Vec::new();
    for (number, nation) in nations.iter().enumerate() {
        let places = nation.entries.iter().enumerate().filter(|(_, entry)| counts(entry));
        all.extend(places.map(|(place, _)| (number, place)));
    }
    all
}

/// A resolver that finds nobody, or tells another stored tag, wherever somebody wears a tag alone.
#[test]
fn a_falsified_resolver_is_noticed() {
    let mut owed = 0;
    for made in drawn() {
        let (_, met) = made.judged(&made.written, |answer| answer);
        let alone = met.times(Premise::Alone) > 0;
        let wrong: [fn(Answer) -> Answer; 3] = [
            |answer| answer.map(|_| None),
            |answer| answer.map(|found| found.map(|[tag, stored]| [tag, stored ^ 1])),
            |answer| answer.map(|found| found.map(|[tag, stored]| [tag ^ 1, stored])),
        ];
        for alter in wrong {
            assert_eq!(made.judged(&made.written, alter).0.is_err(), alone);
        }
        owed += usize::from(alone);
    }
    assert!(owed > 500, "{owed}");
}

#[test]
fn at_the_limits() {
    let mut met = Met::default();
    for (name, campaign) in [extremes::ALL[1], extremes::ALL[10]] {
        let campaign = campaign();
        let record = pack(&campaign);
        let outcome = tried(&record, &campaign, 2_000, &mut Random::new(1), &mut met);
        assert_eq!(outcome, Ok(()), "{name}");
    }
    assert_eq!(met.times(Premise::NationOnADay), 4_000);
    assert!(met.times(Premise::AloneAttacks) > 500, "{met}");
    assert!(met.times(Premise::AloneJoinsOnItsSwitch) > 200, "{met}");
}
