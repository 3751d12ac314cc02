//! samples/isles.atl, answer by answer: what is written here was worked out by hand.

use chronicle_trial::model::{self, Chronicle};
use chronicle_trial::pack::{pack, Tag};
use chronicle_trial::rows::{Kind, Nation, Player};
use chronicle_trial::sample::{isles, ISLES};
use chronicle_trial::{trial, unpack::unpack};

fn text(tag: Tag) -> String {
    String::from_utf8(tag.to_vec()).expect("a tag is ASCII")
}

fn chronicle() -> Chronicle {
    model::chronicle(&isles())
}

/// Initial, latest, stored, and what befell it.
fn told(nation: &Nation) -> String {
    let tags = [nation.initial, nation.latest, nation.stored].map(text).join(" ");
    let entries = nation.entries.iter().map(|entry| match entry.kind {
        Kind::Switch(target) => format!(", {} {}", entry.date, text(target)),
        Kind::Appeared => format!(", {} appears", entry.date),
        Kind::Annexed => format!(", {} annexed", entry.date),
    });
    tags + &entries.collect::<String>()
}

#[test]
fn shipped_bytes() {
    assert_eq!(pack(&isles()), ISLES, "`cargo run --example isles` writes the sample anew");
    assert_eq!(unpack(ISLES), Ok(isles()));
    assert_eq!(ISLES.len(), 700);
}

#[test]
fn nations() {
    let chronicle = chronicle();
    assert_eq!(trial::accepted(ISLES, &chronicle, &[]), Ok(()));
    assert_eq!(
        chronicle.nations.iter().map(told).collect::<Vec<_>>(),
        [
            "ARA ARA ARA, 15160123 annexed",
            "BRI BRI BRI, 14910206 annexed",
            "BUR BUR BUR, 14770105 annexed",
            "CAS SPA SPA, 14790119 SPA",
            "ENG GBR GBR, 14701101 GBR",
            "FRA FRA FRA",
            "MUN MUN MUN, 14500601 annexed",
            "NED NED NED, 15200101 appears",
            "POR POR POR",
            "SCO SCO SCO, 14610101 annexed, 14750101 appears",
            "TYR IRE IRE, 14600301 ULS, 14650301 IRE",
        ]
    );
    // England's and Great Britain's land is one nation's; of the last two nobody ever held the first.
    let (fra, gbr) = (Some(*b"FRA"), Some(*b"GBR"));
    let sco = Some(*b"SCO");
    assert_eq!(
        chronicle.holders[..10],
        [None, gbr, gbr, sco, gbr, fra, fra, fra, Some(*b"NED"), fra]
    );
    assert_eq!(chronicle.holders[17..], [None, Some(*b"SPA")]);
    assert_eq!(chronicle.held, [4, 3, 1, 3, 0, 0, 0, 4, 0, 1, 1, 0]);
}

#[test]
fn changes() {
    let changes = chronicle().changes;
    let told = |place: usize| {
        let change = changes[place];
        (change.date, change.id, text(change.from), text(change.to))
    };
    assert_eq!(changes.len(), 12);
    assert_eq!(told(0), (14500601, 15, "MUN".into(), "TYR".into()));
    assert_eq!(told(5), (14770105, 7, "BUR".into(), "FRA".into()));
    assert_eq!(told(6), (14770105, 8, "BUR".into(), "FRA".into()));
    assert_eq!(told(11), (15200101, 8, "FRA".into(), "NED".into()));
}

#[test]
fn page() {
    let selection = "IRE\nGBR\nSCO\nBUR\nNED\nFRA\nNOR\nTYR\nIRE\n";
    let expected = "\
selected 9
IRE TYR IRE 2 living
GBR ENG GBR 1 living
SCO SCO SCO 2 living
BUR BUR BUR 1 annexed
NED NED NED 1 living
FRA FRA FRA 0 living
NOR absent
TYR absent
IRE TYR IRE 2 living
";
    let page = model::page(ISLES, selection.as_bytes());
    assert_eq!(page, Ok(expected.into()));
    assert_eq!(trial::page(ISLES, selection.as_bytes(), &page), Ok(()));
}

/// Tyrone is in a war under the tag that it no longer has.
#[test]
fn bookings() {
    let nations = chronicle().nations;
    let bookings = model::bookings(&isles(), &nations);
    let rows =
        bookings.iter().map(|row| format!("{} {} {}", row.war, text(row.tag), text(row.stored)));
    assert_eq!(
        rows.collect::<Vec<_>>(),
        [
            "0 FRA FRA",
            "0 ENG GBR",
            "1 ENG GBR",
            "1 SCO SCO",
            "1 TYR IRE",
            "2 FRA FRA",
            "2 BUR BUR",
            "2 GBR GBR",
            "3 IRE IRE",
            "3 GBR GBR",
        ]
    );
    assert_eq!(trial::bookings(ISLES, &nations, &bookings), Ok(()));
}

/// From 1445 on a row for each year, under the tag of the time.
#[test]
fn ledger() {
    let nations = chronicle().nations;
    let ledgers: Vec<_> = nations.iter().map(|nation| model::ledger(&isles(), nation)).collect();
    let rows = &ledgers[10];
    assert_eq!(
        rows.iter().map(|row| row.year).collect::<Vec<_>>(),
        (1445..=1550).collect::<Vec<_>>()
    );
    let worn = |tag: &Tag| rows.iter().filter(|row| row.tag == *tag).count();
    assert_eq!([worn(b"TYR"), worn(b"ULS"), worn(b"IRE")], [16, 5, 85]);
    let values = rows.iter().filter(|row| row.value != 0).map(|row| (row.year, row.value));
    assert_eq!(
        values.collect::<Vec<_>>(),
        [
            (1445, 4),
            (1447, 5),
            (1451, 9),
            (1462, 10),
            (1464, 11),
            (1466, 12),
            (1470, -3),
            (1486, 20),
        ]
    );
    let each: Vec<usize> = (0..nations.len()).collect();
    assert_eq!(trial::ledgers(ISLES, &nations, &ledgers, &each), Ok(()));
}

#[test]
fn players() {
    let nations = chronicle().nations;
    let players = model::players(&isles());
    let (ann, bob) = (Player { name: 0, tag: *b"IRE" }, Player { name: 4, tag: *b"NED" });
    assert_eq!(players, [ann, bob]);
    assert_eq!(trial::players(ISLES, &players), Ok(()));

    let histories = model::histories(&isles(), &nations);
    let told = histories.iter().map(|history| {
        let tags = [history.initial, history.latest, history.stored].map(text).join(" ");
        (tags, history.nation, history.human, history.names.clone())
    });
    assert_eq!(
        told.collect::<Vec<_>>(),
        [
            ("TYR IRE IRE".into(), Some(10), true, vec![0]),
            ("NED NED NED".into(), Some(7), true, vec![4]),
            ("SCO SCO SCO".into(), Some(9), false, vec![]),
        ]
    );
    assert_eq!(trial::histories(ISLES, &nations, &histories), Ok(()));

    let start = model::starting_country(&histories, &nations);
    assert_eq!(start, Some(*b"TYR"));
    let words = chronicle_trial::rows::history_words(&histories);
    assert_eq!(trial::starting(&nations, &words, start), Ok(()));
}
