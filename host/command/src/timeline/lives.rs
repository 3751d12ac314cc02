//! When each nation held land, and which tags it wore.

use std::collections::BTreeSet;

use chronicle::{Chronicle, CountryTag, Entry, EntryKind, Eu4Date, Nation};

/// Days on which a nation held land, from the first to the one on which it lost all.
#[derive(Clone, Copy, Debug, PartialEq, Eq)]
pub struct Span {
    pub start: Eu4Date,
    pub end: Eu4Date,
}

/// A nation as it is drawn, from one day to another.
#[derive(Debug)]
pub struct Life {
    nation: Nation,
    /// In the order of days.
    pub spans: Vec<Span>,
    /// The switches in that time that came while it held land, or before it held land again, each with the tag
    /// worn then.
    pub switches: Vec<(Eu4Date, CountryTag)>,
    /// The tags that it wears on the first day and on the last.
    worn: [CountryTag; 2],
    /// How it stands on the last day.
    stands: Stands,
    /// Whether something befell it after the first day, up to the last.
    pub changed: bool,
}

/// How a nation stands on the last day that is drawn.
#[derive(Clone, Copy, Debug, PartialEq, Eq)]
enum Stands {
    HoldingLand,
    /// It lost the last on this day.
    Ended(Eu4Date),
    /// It holds land only later, from this day on.
    NotYet(Eu4Date),
    /// It held land before the first day of all.
    Before,
}

/// The lives of all nations, in their order, from the start date to this one.
pub fn of(chronicle: &Chronicle<'_>, end: Eu4Date) -> Vec<Life> {
    let start = chronicle.record().start_date();
    let holding: BTreeSet<CountryTag> = chronicle.holders().filter_map(|(_, tag)| tag).collect();
    let life = |nation: Nation| {
        let living = holding.contains(&nation.stored);
        let spans = spans(&nation.entries, start, end, living);
        let stands = match spans.last() {
            Some(_) if living => Stands::HoldingLand,
            Some(last) => Stands::Ended(last.end),
            None => Stands::Before,
        };
        let (switches, worn) =
            (switches(&nation, start), [start, end].map(|day| nation.worn_on(day)));
        Life { nation, spans, switches, worn, stands, changed: false }.within(start, end)
    };
    chronicle.nations().map(life).collect()
}

/// Before its first Appeared or Annexed after the start a nation held land if that is an Annexed; without
/// one it held land all the time if it does in the end.
fn spans(entries: &[Entry], start: Eu4Date, end: Eu4Date, living: bool) -> Vec<Span> {
    let mut lives = entries
        .iter()
        .filter(|entry| entry.date > start && !matches!(entry.kind, EntryKind::TagSwitch(_)))
        .peekable();
    let at_start = lives.peek().map_or(living, |first| first.kind == EntryKind::Annexed);
    let mut since = at_start.then_some(start);
    let mut spans = Vec::new();
    for entry in lives {
        match (entry.kind, since) {
            (EntryKind::Annexed, Some(start)) => {
                spans.push(Span { start, end: entry.date });
                since = None;
            }
            (EntryKind::Appeared, None) => since = Some(entry.date),
            _ => {}
        }
    }
    spans.extend(since.map(|start| Span { start, end }));
    spans
}

fn switches(nation: &Nation, start: Eu4Date) -> Vec<(Eu4Date, CountryTag)> {
    let switch = |entry: &Entry| match entry.kind {
        EntryKind::TagSwitch(target) if entry.date > start => Some((entry.date, target)),
        _ => None,
    };
    nation.entries.iter().filter_map(switch).collect()
}

impl Life {
    /// The part of it between two days.
    pub fn within(mut self, from: Eu4Date, to: Eu4Date) -> Life {
        let alive = self.stands == Stands::HoldingLand;
        let last = self.spans.last().map(|span| span.end);
        let behind_its_end = |date: Eu4Date| !alive && last.is_none_or(|last| date > last);
        self.switches.retain(|&(date, _)| from < date && date <= to && !behind_its_end(date));
        self.changed =
            self.nation.entries.iter().any(|entry| from < entry.date && entry.date <= to);
        self.worn = [from, to].map(|day| self.nation.worn_on(day));
        let (before, first) =
            (self.spans.iter().rfind(|span| span.start <= to), self.spans.first());
        self.stands = match (before, first) {
            (Some(span), _) if to < span.end || (alive && Some(span.end) == last) => {
                Stands::HoldingLand
            }
            (Some(span), _) => Stands::Ended(span.end),
            (None, Some(first)) => Stands::NotYet(first.start),
            (None, None) => Stands::Before,
        };
        self.spans.retain(|span| span.start <= to && from <= span.end);
        for span in &mut self.spans {
            *span = Span { start: span.start.max(from), end: span.end.min(to) };
        }
        self
    }

    /// The tag that its country is stored under.
    pub fn stored(&self) -> CountryTag {
        self.nation.stored
    }

    /// The tag that it wears on the last day.
    pub fn wears(&self) -> CountryTag {
        self.worn[1]
    }

    /// The tag that it began with, and the one that it wears on the first day if that is another.
    pub fn begins(&self) -> String {
        let (initial, worn) = (self.nation.initial, self.worn[0]);
        if initial == worn {
            return initial.to_string();
        }
        format!("{initial} → {worn}")
    }

    /// The tag that it came to, and the year in which it ended.
    pub fn ends(&self) -> String {
        let worn = self.wears();
        match self.stands {
            Stands::HoldingLand => worn.to_string(),
            Stands::Ended(day) => format!("{worn} † {}", day.year()),
            Stands::NotYet(day) => format!("from {}", day.year()),
            Stands::Before => format!("{worn} †"),
        }
    }

    /// Whether it holds land from a day on for so many days of the calendar.
    pub fn held_on(&self, day: u32, until: u32) -> bool {
        self.spans.iter().any(|span| span.start.days() <= day && until <= span.end.days())
    }

    /// All of it in words.
    pub fn told(&self) -> String {
        let Nation { initial, latest, stored, entries, .. } = &self.nation;
        let mut told = format!("{initial}, now {latest}, stored under {stored}");
        for entry in entries {
            told.push_str(&match entry.kind {
                EntryKind::TagSwitch(target) => format!("; {} becomes {target}", entry.date),
                EntryKind::Appeared => format!("; {} appears", entry.date),
                EntryKind::Annexed => format!("; {} is annexed", entry.date),
            });
        }
        told
    }
}

#[cfg(test)]
mod tests {
    use chronicle::{Entry, EntryKind, Eu4Date, Record};
    use chronicle_trial::adversary::{self, days_of};
    use chronicle_trial::generate::Random;
    use chronicle_trial::guarantee::Holding;
    use chronicle_trial::model::changes;
    use chronicle_trial::pack::pack;

    use super::{of, spans, Span};

    fn day(word: u32) -> Eu4Date {
        Eu4Date::from_word(word).expect("a day")
    }

    fn held(entries: &[(u32, EntryKind)], living: bool) -> Vec<(u32, u32)> {
        let entry = |&(date, kind): &(u32, EntryKind)| Entry { date: day(date), kind };
        let entries: Vec<Entry> = entries.iter().map(entry).collect();
        let told = |span: Span| (span.start.word(), span.end.word());
        spans(&entries, day(14441111), day(15000101), living).into_iter().map(told).collect()
    }

    #[test]
    fn bars_and_gaps() {
        use EntryKind::{Annexed, Appeared};
        let whole = (14441111, 15000101);
        assert_eq!(held(&[], true), [whole]);
        assert_eq!(held(&[], false), []);
        // What lies before the start is not drawn, and does not tell who held land then.
        assert_eq!(held(&[(14400101, Annexed)], true), [whole]);
        assert_eq!(held(&[(14400101, Annexed)], false), []);
        assert_eq!(held(&[(14600101, Annexed)], false), [(14441111, 14600101)]);
        assert_eq!(held(&[(14600101, Appeared)], true), [(14600101, 15000101)]);
        let gap = held(&[(14600101, Annexed), (14700101, Appeared)], true);
        assert_eq!(gap, [(14441111, 14600101), (14700101, 15000101)]);
    }

    /// On every day from the start on a bar is drawn exactly if the nation holds a slot, which is looked
    /// up in the changes.
    #[test]
    fn bars_are_where_land_is_held() {
        let (mut random, end) = (Random::new(81), day(99991231));
        let mut met = [0; 2];
        for _ in 0..300 {
            let campaign = adversary::draw(&mut random);
            let holding = Holding::of(&campaign, &changes(&campaign)).expect("slots are there");
            let record = Record::open(pack(&campaign)).expect("it is accepted");
            let lives = of(&record.chronicle().expect("there is room"), end);
            for word in days_of(&mut random, &campaign) {
                let on = day(word);
                for life in lives.iter().filter(|_| on >= record.start_date()) {
                    let here = |span: &Span| span.start <= on && (on < span.end || span.end == end);
                    let drawn = life.spans.iter().any(here);
                    let held = holding.holds(life.nation.stored.bytes(), word);
                    // The last day of all is one on which a bar may end either way.
                    assert!(
                        drawn == held || on == end,
                        "{} on {on}: {:?}",
                        life.told(),
                        life.spans
                    );
                    met[usize::from(held)] += 1;
                }
            }
        }
        assert!(met.iter().all(|&times| times > 1_000), "{met:?}");
    }
}
