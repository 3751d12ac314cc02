//! Ledgers (Rules 7).

use crate::pack::{Campaign, Date, Point, Tag};
use crate::rows::{Kind, LedgerRow, Nation};

/// A stretch of time under one tag.
#[derive(Clone, Copy, Debug, PartialEq, Eq)]
#[allow(missing_docs)]
pub struct Span {
    pub tag: Tag,
    pub start: Date,
    pub end: Date,
}

/// The nation's yearly values under the tags it wore, with zeros for years without one.
///
/// ```
/// use chronicle_trial::model::{chronicle, ledger};
/// use chronicle_trial::pack::{LedgerName, Point};
/// use chronicle_trial::sample;
///
/// let mut campaign = sample::worked();
/// let points = |list: &[(u16, i32)]| list.iter().map(|&(year, value)| Point { year, value }).collect();
/// campaign.ledger = vec![
///     LedgerName { tag: *b"ENG", points: points(&[(1445, 10), (1447, 12)]) },
///     LedgerName { tag: *b"GBR", points: points(&[(1449, 20)]) },
/// ];
/// let rows = ledger(&campaign, &chronicle(&campaign).nations[0]);
/// let values: Vec<_> = rows.iter().map(|row| (row.year, row.value)).collect();
/// assert_eq!(values, [(1445, 10), (1446, 0), (1447, 12), (1448, 0), (1449, 20), (1450, 0)]);
/// ```
pub fn ledger(campaign: &Campaign, nation: &Nation) -> Vec<LedgerRow> {
    let mut rows = Vec::new();
    for span in spans(campaign, nation) {
        if let Some(name) = campaign.ledger.iter().find(|name| name.tag == span.tag) {
            fill(&mut rows, &span, &name.points);
        }
    }
    rows
}

/// The nation's spans, in order. Annexed closes one but keeps tag and start: a switch behind it
/// closes one from there again.
///
/// ```
/// use chronicle_trial::model::{chronicle, spans};
/// use chronicle_trial::sample;
///
/// let campaign = sample::worked();
/// let spans = spans(&campaign, &chronicle(&campaign).nations[0]);
/// let ends: Vec<_> = spans.iter().map(|span| (span.start, span.end)).collect();
/// assert_eq!(ends, [(14441111, 14460101), (14470101, 14480601), (14480601, 14500101)]);
/// ```
pub fn spans(campaign: &Campaign, nation: &Nation) -> Vec<Span> {
    let mut spans = Vec::new();
    let (mut tag, mut start, mut annexed) = (nation.initial, campaign.start, false);
    for entry in &nation.entries {
        let closed = Span { tag, start, end: entry.date };
        match entry.kind {
            Kind::Annexed => spans.push(closed),
            Kind::Appeared => start = entry.date,
            Kind::Switch(target) => {
                spans.push(closed);
                (tag, start) = (target, entry.date);
            }
        }
        annexed = entry.kind == Kind::Annexed;
    }
    if !annexed {
        spans.push(Span { tag, start, end: campaign.current });
    }
    spans
}

fn fill(rows: &mut Vec<LedgerRow>, span: &Span, points: &[Point]) {
    let [first, last] = [span.start, span.end].map(|date| (date / 10_000) as u16);
    let zero = |year| LedgerRow { tag: span.tag, year, value: 0 };
    let leading = points.iter().take_while(|point| point.year < first).count();
    let mut year = first + 1;
    for point in &points[leading..] {
        if point.year > last {
            break;
        }
        rows.extend((year..point.year).map(zero));
        rows.push(LedgerRow { tag: span.tag, year: point.year, value: point.value });
        year = point.year + 1;
    }
    rows.extend((year..last + 1).map(zero));
}
