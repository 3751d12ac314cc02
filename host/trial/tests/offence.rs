//! Where a refused record offends, held against the proved `check`, the independent checker and campaigns whose
//! bad field is known.

use chronicle::raw::check;
use chronicle::{Offence, Part, Record, Refusal};
use chronicle_trial::cases::Cases;
use chronicle_trial::extremes;
use chronicle_trial::generate::{at_limits, campaign, Knobs, Random};
use chronicle_trial::pack::{pack, Campaign};
use chronicle_trial::reference::inspect;
use chronicle_trial::{edges, sample};

/// Cases drawn; each is asked of all three.
const CASES: usize = 400_000;

/// The offence's number is the library's and the independent checker's, and it lies in its row.
fn agree(record: &[u8], name: &str) -> Option<Offence> {
    let found = Record::offence(record);
    let refusal = found.as_ref().map(|found| found.refusal);
    assert_eq!(refusal, check(record).err(), "{name}: {found:?}");
    assert_eq!(refusal, inspect(record).err(), "{name}: {found:?}");
    let inside = |found: &Offence| {
        let row = &found.place.bytes;
        row.end <= record.len()
            && (row.contains(&found.offset)
                || found.offset == record.len()
                || found.place.part == Part::End)
    };
    assert!(found.as_ref().is_none_or(inside), "{name}: {found:?}");
    found
}

#[test]
fn the_number_is_that_of_check() {
    edges::all().iter().for_each(|edge| drop(agree(&edge.record, &edge.name)));
    for (name, campaign) in extremes::ALL {
        assert_eq!(agree(&pack(&campaign()), name), None);
    }
    let (mut cases, mut met) = (Cases::new(71), [0; 10]);
    for _ in 0..CASES {
        let case = cases.draw();
        let found = agree(&case.record, &case.to_string());
        met[found.map_or(0, |found| usize::from(found.refusal.number()))] += 1;
    }
    assert!(met.iter().all(|&times| times > 500), "{met:?}");
}

/// Every length of a record, and every byte of it changed.
#[test]
fn of_every_cut_and_every_byte() {
    let record = pack(&edges::campaign());
    for length in 0..=record.len() {
        agree(&record[..length], &format!("cut to {length}"));
    }
    for at in 0..record.len() {
        for byte in 0..=255 {
            let mut damaged = record.clone();
            damaged[at] = byte;
            agree(&damaged, &format!("{byte} at {at}"));
        }
    }
}

/// A field is bad where it is said to be: with a good value there it is told no more, and all else is.
#[test]
fn a_mended_field_is_told_no_more() {
    let (mut cases, mut mended) = (Cases::new(72), 0);
    for _ in 0..40_000 {
        let mut record = cases.draw().record.clone();
        let told: Vec<Offence> = Record::offences(&record).collect();
        let Some((first, rest)) = told.split_first() else {
            continue;
        };
        let good: &[u8] = match first.refusal {
            Refusal::BadTag => b"A-1",
            Refusal::BadDate => &14450101_u32.to_le_bytes(),
            Refusal::UndefinedFlag => &[0],
            Refusal::LedgerYear => &[0, 0],
            _ => continue,
        };
        record[first.offset..first.offset + good.len()].copy_from_slice(good);
        // What stands twice, and the order of dates, may change with the field.
        let fields = |told: &[Offence]| -> Vec<(usize, Refusal)> {
            let field = |found: &&Offence| {
                !matches!(found.refusal, Refusal::Repeated | Refusal::DatesReversed)
            };
            told.iter().filter(field).map(|found| (found.offset, found.refusal)).collect()
        };
        let left: Vec<Offence> = Record::offences(&record).collect();
        assert_eq!(fields(&left), fields(rest), "{first}");
        mended += 1;
    }
    assert!(mended > 5_000, "{mended}");
}

/// A campaign with one bad field, and how its row is told.
type Spoilt = (Campaign, Refusal, String);

/// Where a row of these owners' rows stands: the owner's number, and the row's own in its section.
fn owned(sizes: impl Iterator<Item = usize>, random: &mut Random) -> Option<(usize, usize, usize)> {
    let sizes: Vec<usize> = sizes.collect();
    let rows: Vec<(usize, usize)> = sizes
        .iter()
        .enumerate()
        .flat_map(|(owner, &rows)| (0..rows).map(move |row| (owner, row)))
        .collect();
    let row = random.below(rows.len().max(1));
    rows.get(row).map(|&(owner, inside)| (owner, inside, row))
}

fn text(tag: [u8; 3]) -> String {
    String::from_utf8(tag.to_vec()).expect("a good tag is text")
}

/// An owner event, a switch, a war event or a ledger point is made bad.
fn spoilt(mut campaign: Campaign, random: &mut Random) -> Option<Spoilt> {
    match random.below(4) {
        0 => {
            let sizes = campaign.provinces.iter().map(|province| province.events.len());
            let (owner, inside, row) = owned(sizes, random)?;
            let province = &mut campaign.provinces[owner];
            province.events[inside].date = 14440229;
            let told = format!("owner event (row {row}) of province {} (row {owner})", province.id);
            Some((campaign, Refusal::BadDate, told))
        }
        1 => {
            let sizes = campaign.countries.iter().map(|country| country.switches.len());
            let (owner, inside, row) = owned(sizes, random)?;
            let country = &mut campaign.countries[owner];
            country.switches[inside].from = *b"A B";
            let told = format!("switch (row {row}) of country {} (row {owner})", text(country.tag));
            Some((campaign, Refusal::BadTag, told))
        }
        2 => {
            let sizes = campaign.wars.iter().map(|war| war.events.len());
            let (owner, inside, row) = owned(sizes, random)?;
            campaign.wars[owner].events[inside].kind = 5;
            let told = format!("war event (row {row}) of war {owner}");
            Some((campaign, Refusal::UndefinedFlag, told))
        }
        _ => {
            let sizes = campaign.ledger.iter().map(|ledger| ledger.points.len());
            let (owner, inside, row) = owned(sizes, random)?;
            let ledger = &mut campaign.ledger[owner];
            ledger.points[inside].year = 10_000;
            let told = format!(
                "ledger point (row {row}) of the ledger of {} (row {owner})",
                text(ledger.tag)
            );
            Some((campaign, Refusal::LedgerYear, told))
        }
    }
}

/// The place is told by what the campaign says, which knows nothing of offsets.
#[test]
fn places_are_those_of_the_campaign() {
    let (mut random, mut told) = (Random::new(73), 0);
    for _ in 0..4_000 {
        let drawn = campaign(&mut random, &Knobs::small());
        let Some((campaign, refusal, place)) = spoilt(drawn, &mut random) else {
            continue;
        };
        let found = agree(&pack(&campaign), &place).expect("it is bad");
        assert_eq!((found.refusal, found.place.to_string()), (refusal, place));
        told += 1;
    }
    assert!(told > 2_000, "{told}");
}

#[test]
fn of_sizes_and_of_what_stands_twice() {
    let told = |record: &[u8]| -> Vec<String> {
        Record::offences(record).map(|found| found.to_string()).collect()
    };
    let cut = "the end of the record, at offset 102: the record ends after 102 bytes, and its rows need 103";
    assert_eq!(told(&sample::WORKED[..102]), [cut]);
    let mut longer = sample::WORKED.to_vec();
    longer.push(0);
    let left =
        "the end of the record, at offset 103: bytes left over behind the last row or string: 1";
    assert_eq!(told(&longer), [left]);
    let mut twice = sample::worked();
    twice.countries[1].tag = twice.countries[0].tag;
    twice.provinces[1].id = 3;
    twice.current = 14440101;
    let expected = [
        "country GBR (row 1), at offset 56: its tag is that of the country in row 0 too",
        "province 3 (row 1), at offset 82: its id is above 2, the number of provinces",
        "the head, at offset 10: the current date 1444-01-01 lies before the start date 1444-11-11",
    ];
    assert_eq!(told(&pack(&twice)), expected);
}

/// A record of very many offences is gone through only as far as it is asked.
#[test]
fn of_a_million_offences() {
    let mut campaign = at_limits();
    campaign
        .ledger
        .iter_mut()
        .flat_map(|ledger| &mut ledger.points)
        .for_each(|point| point.year = 10_000);
    let record = pack(&campaign);
    assert_eq!(Record::offences(&record).take(3).count(), 3);
    assert_eq!(Record::offences(&record).count(), 1_000_000);
}
