//! Each call, and what the Rust does for the same answer.

use chronicle::raw::{self, Chronicle, Room};
use chronicle::rows::{
    BOOKING_WORDS, CHANGE_WORDS, COUNT_WORDS, ENTRY_WORDS, HISTORY_WORDS, LEDGER_WORDS,
    NATION_WORDS, RUN_WORDS,
};
use chronicle_oracle::paging;
use chronicle_oracle::rust::{Resolver, Rust};
use chronicle_trial::reference::refusal_number;
use chronicle_trial::rows::tag_word;
use eu4save::query::LedgerPoint;

use crate::given::Given;
use crate::race::{race, Best};

/// Its name in the table, and its race; none where there is nothing to ask.
pub type Call = (&'static str, fn(&Given, usize) -> Option<Best>);

pub const CALLS: [Call; 17] = [
    ("check", check),
    ("province_owners", province_owners),
    ("events_on", events_on),
    ("nation_events", nation_events),
    ("resolver_resolve", resolve),
    ("resolver_initial", initial),
    ("resolver_resolve_at", resolve_at),
    ("resolver_initial_at", initial_at),
    ("resolver_resolve_each", resolve_each),
    ("war_participants", war_participants),
    ("nation_ledger", nation_ledger),
    ("nation_ledger_rows", nation_ledger_rows),
    ("nation_ledgers", nation_ledgers),
    ("players", players),
    ("player_histories", player_histories),
    ("starting_country", starting_country),
    ("page", page),
];

/// What the two times of a row are, where the name does not say it.
pub const LEGEND: &str = "\
Ours has the check of the record in it, wherever a record is given (the first row), and the test of lent rows; the Rust \
works on its ready-made save. In place of the Rust: of check the independent checker, of page plain Rust over the Rust's \
own answers. The Rust's time has province_owners in it for events_on and nation_events, and the making of its resolver for \
the resolver and war_participants; nation_ledger is that of the nation with the longest one, and nation_ledger_rows stands \
against it. A page holds 65,536 bytes: the first column has a record of that size with 16,384 tags selected, the third one \
4,000 changes of one province. The date that stands in for jomini's is one 32-bit number, which flatters the Rust.";

const ROOM: &str = "there is room for every answer";
const DAY: u32 = 15000101;

fn lent(given: &Given) -> Chronicle<'_> {
    Chronicle { nations: &given.nations, entries: &given.entries }
}

fn check(given: &Given, rounds: usize) -> Option<Best> {
    let record = &given.record;
    Some(race(rounds, || refusal_number(record), || raw::check(record)))
}

fn province_owners(given: &Given, rounds: usize) -> Option<Best> {
    let mut out = vec![1; CHANGE_WORDS * given.counts.owner_events];
    let ours = || raw::province_owners(&given.record, &mut out).expect(ROOM);
    Some(race(rounds, || given.rust.owners(), ours))
}

fn events_on(given: &Given, rounds: usize) -> Option<Best> {
    let mut out = [1; RUN_WORDS];
    let theirs = || {
        let owners = given.rust.owners();
        (chronicle_oracle::rust::events_on(&owners, DAY).count, owners)
    };
    Some(race(rounds, theirs, || raw::events_on(&given.record, DAY, &mut out).expect(ROOM)))
}

fn nation_events(given: &Given, rounds: usize) -> Option<Best> {
    let counts = &given.counts;
    let entries = ENTRY_WORDS * (counts.switches + 2 * counts.owner_events);
    let cells = [
        NATION_WORDS * counts.countries,
        entries,
        counts.provinces + 1,
        counts.countries,
        CHANGE_WORDS * counts.owner_events,
        COUNT_WORDS,
    ];
    let mut lent = cells.map(|length| vec![1; length]);
    let ours = || {
        let [nations, entries, holders, held, changes, counts] =
            lent.each_mut().map(|cells| &mut cells[..]);
        let room = Room { nations, entries, holders, held, changes, counts };
        raw::nation_events(&given.record, room).expect(ROOM);
    };
    let theirs = || {
        let owners = given.rust.owners();
        (given.rust.nation_events(&owners), owners)
    };
    Some(race(rounds, theirs, ours))
}

/// A form of the resolver, asked for the tag of the first question.
fn one<T, U>(
    given: &Given,
    rounds: usize,
    theirs: impl Fn(&Resolver, [u8; 3]) -> T,
    ours: impl Fn(Chronicle<'_>, u32) -> U,
) -> Option<Best> {
    let tag = given.questions[0].0;
    let theirs = || {
        let resolver = Resolver::of(&given.theirs);
        (theirs(&resolver, tag), resolver)
    };
    Some(race(rounds, theirs, || ours(lent(given), tag_word(tag))))
}

fn resolve(given: &Given, rounds: usize) -> Option<Best> {
    one(given, rounds, |r, tag| r.resolve(tag, DAY), |rows, tag| rows.resolve(tag, DAY))
}

fn initial(given: &Given, rounds: usize) -> Option<Best> {
    one(given, rounds, |r, tag| r.initial(tag), |rows, tag| rows.initial(tag))
}

fn resolve_at(given: &Given, rounds: usize) -> Option<Best> {
    let ours = |rows: Chronicle<'_>, tag| rows.resolve_at(DAY, tag, DAY);
    one(given, rounds, |r, tag| r.resolve_at(DAY, tag, DAY), ours)
}

fn initial_at(given: &Given, rounds: usize) -> Option<Best> {
    one(given, rounds, |r, tag| r.initial_at(DAY, tag), |rows, tag| rows.initial_at(DAY, tag))
}

fn resolve_each(given: &Given, rounds: usize) -> Option<Best> {
    let asked = given.asked();
    let mut out = vec![1; asked.len()];
    let theirs = || {
        let resolver = Resolver::of(&given.theirs);
        let answers: Vec<_> =
            given.questions.iter().map(|&(tag, date)| resolver.resolve(tag, date)).collect();
        (answers, resolver)
    };
    Some(race(rounds, theirs, || lent(given).resolve_each(&asked, &mut out).expect(ROOM)))
}

fn war_participants(given: &Given, rounds: usize) -> Option<Best> {
    let mut out = vec![1; BOOKING_WORDS * given.counts.war_events];
    let ours = || lent(given).war_participants(&given.record, &mut out).expect(ROOM);
    Some(race(rounds, || given.rust.war_participants(&given.theirs), ours))
}

fn their_ledger(given: &Given) -> Vec<LedgerPoint> {
    given.rust.ledger_points(&given.theirs[given.nation])
}

fn nation_ledger(given: &Given, rounds: usize) -> Option<Best> {
    let mut out = vec![1; LEDGER_WORDS * given.nation_rows];
    let ours = || lent(given).nation_ledger(&given.record, given.nation, &mut out).expect(ROOM);
    Some(race(rounds, || their_ledger(given), ours))
}

fn nation_ledger_rows(given: &Given, rounds: usize) -> Option<Best> {
    let ours = || lent(given).nation_ledger_rows(&given.record, given.nation, usize::MAX);
    Some(race(rounds, || their_ledger(given), || ours().expect("it is listed")))
}

fn nation_ledgers(given: &Given, rounds: usize) -> Option<Best> {
    let (mut out, mut counts) = (vec![1; LEDGER_WORDS * given.rows], vec![1; given.theirs.len()]);
    let theirs = || -> Vec<_> {
        given.theirs.iter().map(|nation| given.rust.ledger_points(nation)).collect()
    };
    let ours = || lent(given).nation_ledgers(&given.record, &mut out, &mut counts).expect(ROOM);
    Some(race(rounds, theirs, ours))
}

fn players(given: &Given, rounds: usize) -> Option<Best> {
    let mut out = vec![1; given.counts.strings];
    let ours = || raw::players(&given.record, &mut out).expect(ROOM);
    Some(race(rounds, || given.rust.player_list(), ours))
}

fn player_histories(given: &Given, rounds: usize) -> Option<Best> {
    let mut out = vec![1; HISTORY_WORDS * given.counts.countries];
    let mut names = vec![1; given.counts.strings];
    let ours = || lent(given).player_histories(&given.record, &mut out, &mut names).expect(ROOM);
    Some(race(rounds, || given.rust.histories(&given.theirs), ours))
}

fn starting_country(given: &Given, rounds: usize) -> Option<Best> {
    let mut out = [1];
    let ours = || lent(given).starting_country(&given.histories, &mut out).expect(ROOM);
    let theirs = || given.rust.starting_country(&given.their_histories);
    Some(race(rounds, theirs, ours))
}

fn page(given: &Given, rounds: usize) -> Option<Best> {
    let page = given.page.as_ref()?;
    let mut out = vec![1; raw::page_room(page.selection.len())];
    let theirs = || paged(&page.rust, &page.record, &page.selection);
    let ours = || raw::write_page(&page.record, &page.selection, &mut out).expect(ROOM);
    Some(race(rounds, theirs, ours))
}

fn paged(rust: &Rust, record: &[u8], selection: &[u8]) -> Vec<u8> {
    paging::page(rust, record, selection).expect("a page holds it")
}
