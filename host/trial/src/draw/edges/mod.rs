//! Records at the edges of the rules, each with the number that they give it (Rules 2).
//!
//! The numbers are written here by hand; neither checker is asked.

mod fields;
mod order;
mod sizes;

use crate::damage::Damage;
use crate::pack::{pack, Campaign, LedgerName, Point, Switch, War, WarEvent, NONE};
use crate::sample;

/// A record and the number it must get.
#[derive(Clone, Debug)]
#[allow(missing_docs)]
pub struct Edge {
    pub name: String,
    pub number: u8,
    pub record: Vec<u8>,
}

/// All edges whose records stay under 60,000 bytes.
///
/// ```
/// use chronicle_trial::{edges, reference::refusal_number};
///
/// for edge in edges::all() {
///     assert_eq!(refusal_number(&edge.record), edge.number, "{}", edge.name);
/// }
/// ```
pub fn all() -> Vec<Edge> {
    let mut edges = Edges::default();
    edges.openings();
    edges.sizes();
    edges.totals();
    edges.strings();
    edges.limits();
    edges.tags();
    edges.dates();
    edges.flags_and_kinds();
    edges.repeats();
    edges.order_of_dates();
    edges.ledger_years();
    edges.first_field_wins();
    edges.groups_in_order();
    edges.0
}

/// A small campaign with every kind of row in it.
///
/// ```
/// use chronicle_trial::{edges, pack::pack, reference::refusal_number};
///
/// assert_eq!(refusal_number(&pack(&edges::campaign())), 0);
/// ```
pub fn campaign() -> Campaign {
    let war_event = |kind| WarEvent { date: 14450301, kind, tag: *b"SCO" };
    let mut campaign = sample::worked();
    campaign.countries[0].previous_tags = vec![*b"ENG", *b"A-1"];
    campaign.countries[1].previous_tags = vec![NONE];
    campaign.countries[1].switches = vec![Switch { date: 14490101, from: *b"BUR" }];
    campaign.wars = vec![War { events: (0..5).map(war_event).collect() }, War::default()];
    campaign.ledger = vec![
        LedgerName { tag: *b"ENG", points: vec![point(1445), point(1447)] },
        LedgerName { tag: *b"GBR", points: vec![point(1449)] },
    ];
    campaign.strings = vec![b"Player".to_vec(), b"GBR".to_vec()];
    campaign
}

fn point(year: u16) -> Point {
    Point { year, value: -1 }
}

/// The bytes after a change to [`campaign`].
fn changed(change: impl FnOnce(&mut Campaign)) -> Vec<u8> {
    let mut campaign = campaign();
    change(&mut campaign);
    pack(&campaign)
}

/// The bytes after `value` is written over `width` bytes at `offset`.
fn written(mut record: Vec<u8>, offset: usize, width: usize, value: u32) -> Vec<u8> {
    Damage::Write { offset, width, value }.apply(&mut record);
    record
}

#[derive(Default)]
struct Edges(Vec<Edge>);

impl Edges {
    fn add(&mut self, number: u8, name: impl Into<String>, record: Vec<u8>) {
        self.0.push(Edge { name: name.into(), number, record });
    }
}
