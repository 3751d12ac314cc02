//! What is hard about ledgers: spans, and the points that they read.

use chronicle_trial::model::{spans, Span};
use chronicle_trial::pack::{Campaign, Date, LedgerName, Point};
use chronicle_trial::rows::{Entry, Kind, LedgerRow, Nation};

use super::Seen;

/// What is looked for in ledgers.
pub const LEDGER_CASES: [&str; 32] = [
    "ledger: Annexed comes last",
    "ledger: Annexed twice",
    "ledger: Appeared behind Annexed",
    "ledger: Appeared comes last",
    "ledger: a later point before the first year",
    "ledger: a name twice",
    "ledger: a name without points",
    "ledger: a nation without rows",
    "ledger: a point behind the last year",
    "ledger: a point in the first year",
    "ledger: a point in the last year",
    "ledger: a point of the span behind one that ends it",
    "ledger: a span of one year",
    "ledger: a span of two years",
    "ledger: a span that ends before it starts",
    "ledger: a switch behind Annexed",
    "ledger: a tag comes back",
    "ledger: a tag without a name",
    "ledger: a value below 0",
    "ledger: a year repeats",
    "ledger: an entry before the start",
    "ledger: an entry behind the current date",
    "ledger: leading points before the first year",
    "ledger: rows under two tags",
    "ledger: the least and the greatest value",
    "ledger: year 0",
    "ledger: year 9999",
    "ledger: years fall",
    "ledger: zeros before the first point",
    "ledger: zeros behind the last point",
    "ledger: zeros between points",
    "ledger: zeros without a point",
];

impl Seen {
    /// Notes the hard cases of the ledgers that a list of nations has with a campaign.
    ///
    /// ```
    /// use chronicle_trial::pack::{LedgerName, Point};
    /// use chronicle_trial::{model, sample};
    /// use chronicle_oracle::seen::Seen;
    ///
    /// let mut campaign = sample::worked();
    /// let points = vec![Point { year: 1447, value: -1 }];
    /// campaign.ledger = vec![LedgerName { tag: *b"ENG", points }];
    /// let nations = model::chronicle(&campaign).nations;
    /// let ledgers: Vec<_> = nations.iter().map(|n| model::ledger(&campaign, n)).collect();
    /// let mut seen = Seen::default();
    /// seen.ledgers(&campaign, &nations, &ledgers);
    /// assert_eq!(seen.times("ledger: a point behind the last year"), 1);
    /// assert_eq!(seen.times("ledger: a tag without a name"), 2);
    /// assert!(seen.never().contains(&"ledger: years fall"));
    /// ```
    pub fn ledgers(&mut self, campaign: &Campaign, nations: &[Nation], ledgers: &[Vec<LedgerRow>]) {
        LEDGER_CASES.into_iter().for_each(|what| self.add(what, 0));
        for (nation, rows) in nations.iter().zip(ledgers) {
            self.rows_of_a_nation(rows);
            self.entries(campaign, &nation.entries);
            for span in spans(campaign, nation) {
                self.span(&campaign.ledger, span);
            }
        }
    }

    fn rows_of_a_nation(&mut self, rows: &[LedgerRow]) {
        self.if_any("ledger: a nation without rows", rows.is_empty());
        let tags: Vec<_> = rows.chunk_by(|a, b| a.tag == b.tag).map(|rows| rows[0].tag).collect();
        self.if_any("ledger: rows under two tags", tags.len() > 1);
        let again = |(at, tag)| tags[at + 1..].contains(tag);
        self.if_any("ledger: a tag comes back", tags.iter().enumerate().any(again));
    }

    fn entries(&mut self, campaign: &Campaign, entries: &[Entry]) {
        let any = |test: &dyn Fn(Date) -> bool| entries.iter().any(|entry| test(entry.date));
        self.if_any("ledger: an entry before the start", any(&|date| date < campaign.start));
        self.if_any("ledger: an entry behind the current date", any(&|d| d > campaign.current));
        let pair = |test: fn(Kind, Kind) -> bool| {
            entries.windows(2).any(|pair| test(pair[0].kind, pair[1].kind))
        };
        let switch = |kind| matches!(kind, Kind::Switch(_));
        self.if_any(
            "ledger: a switch behind Annexed",
            entries.windows(2).any(|p| p[0].kind == Kind::Annexed && switch(p[1].kind)),
        );
        self.if_any(
            "ledger: Appeared behind Annexed",
            pair(|one, other| [one, other] == [Kind::Annexed, Kind::Appeared]),
        );
        self.if_any(
            "ledger: Annexed twice",
            pair(|one, other| [one, other] == [Kind::Annexed, Kind::Annexed]),
        );
        let last = entries.last().map(|entry| entry.kind);
        self.if_any("ledger: Annexed comes last", last == Some(Kind::Annexed));
        self.if_any("ledger: Appeared comes last", last == Some(Kind::Appeared));
    }

    fn span(&mut self, ledger: &[LedgerName], span: Span) {
        let mut own = ledger.iter().filter(|name| name.tag == span.tag);
        let first = own.next();
        self.if_any("ledger: a tag without a name", first.is_none());
        let Some(first) = first else { return };
        self.if_any("ledger: a name twice", own.any(|other| other.points != first.points));
        let [start, end] = [span.start, span.end].map(|date| (date / 10_000) as u16);
        self.if_any("ledger: a span of one year", start == end);
        self.if_any("ledger: a span of two years", start + 1 == end);
        self.if_any("ledger: a span that ends before it starts", end < start);
        self.points([start, end], &first.points);
    }

    fn points(&mut self, [start, end]: [u16; 2], points: &[Point]) {
        let leading = points.iter().take_while(|point| point.year < start).count();
        let (skipped, rest) = points.split_at(leading);
        let (read, behind) = rest.split_at(rest.iter().take_while(|p| p.year <= end).count());
        let any = |test: &dyn Fn(&Point) -> bool| read.iter().any(test);
        let pair = |test: &dyn Fn(u16, u16) -> bool| {
            read.windows(2).any(|pair| test(pair[0].year, pair[1].year))
        };
        self.if_any("ledger: a name without points", points.is_empty());
        self.if_any("ledger: leading points before the first year", !skipped.is_empty());
        self.if_any("ledger: a later point before the first year", any(&|p| p.year < start));
        self.if_any("ledger: a point in the first year", any(&|p| p.year == start));
        self.if_any("ledger: a point in the last year", any(&|p| p.year == end && start < end));
        self.if_any("ledger: a point behind the last year", !behind.is_empty());
        let returns = behind.iter().skip(1).any(|p| (start..=end).contains(&p.year));
        self.if_any("ledger: a point of the span behind one that ends it", returns);
        self.if_any("ledger: years fall", pair(&|one, other| other < one));
        self.if_any("ledger: a year repeats", pair(&|one, other| other == one));
        self.if_any("ledger: zeros between points", pair(&|one, other| other > one + 1));
        let before = read.first().is_some_and(|first| first.year > start + 1);
        self.if_any("ledger: zeros before the first point", before);
        let after = read.last().is_some_and(|last| last.year < end);
        self.if_any("ledger: zeros behind the last point", after);
        self.if_any("ledger: zeros without a point", read.is_empty() && start < end);
        self.if_any("ledger: year 9999", any(&|p| p.year == 9999));
        self.if_any("ledger: year 0", any(&|p| p.year == 0));
        self.if_any("ledger: a value below 0", any(&|p| p.value < 0));
        self.if_any("ledger: the least and the greatest value", {
            any(&|p| p.value == i32::MIN) && any(&|p| p.value == i32::MAX)
        });
    }
}
