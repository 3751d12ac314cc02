//! `chronicle describe` of refused records: the place first, by the names that the answers use.

use chronicle_trial::damage::Damage;
use chronicle_trial::generate::at_limits;
use chronicle_trial::pack::{pack, Campaign};
use chronicle_trial::sample::isles;

use super::{about, run, told, written, Ran};

/// The description of a spoilt record: what it prints, without the name of the file.
fn described(spoil: impl FnOnce(&mut Campaign), rest: &[&str]) -> Ran {
    let mut campaign = isles();
    spoil(&mut campaign);
    let file = written("spoilt.atl", &pack(&campaign));
    let ran = run(&[&["describe", file.text()], rest].concat());
    assert_eq!((ran.status, ran.err.as_str()), (1, ""), "{ran:?}");
    Ran { out: ran.out.replace(&format!("{}: ", file.text()), ""), ..ran }
}

fn first_line(spoil: impl FnOnce(&mut Campaign)) -> String {
    described(spoil, &[]).out.lines().next().unwrap_or_default().to_string()
}

/// A province is told by its id, which is not its row.
#[test]
fn a_leap_day_of_a_province() {
    let ran = described(|campaign| campaign.provinces[7].events[0].date = 14440229, &[]);
    let id = isles().provinces[7].id;
    let row = isles().provinces[..7].iter().map(|province| province.events.len()).sum::<usize>();
    let lines: Vec<&str> = ran.out.lines().collect();
    let place = format!(
        "owner event (row {row}) of province {id} (row 7), at offset {}: its date is 1444-02-29 (14440229), which is no day",
        354 + 7 * row
    );
    assert_eq!(lines[0], place);
    assert_eq!(
        lines[1],
        format!("  its row, 7 bytes at offset {}: 25 57 dc 00 46 52 41", 354 + 7 * row)
    );
    assert!(lines[2].starts_with("refused 5: "), "{}", lines[2]);
    assert_eq!(lines[3], "700 bytes, refused");
    // The answers tell the same province by that id.
    assert!(told(about("isles.atl", "owners", &[])).contains(&format!("province {id} ")));
}

#[test]
fn rows_by_the_names_of_the_answers() {
    let place = first_line(|campaign| campaign.countries[1].flags = 8);
    assert!(
        place.starts_with("country GBR (row 1), at offset 59: its flags are 0b00001000, "),
        "{place}"
    );
    let place = first_line(|campaign| campaign.wars[3].events[0].kind = 9);
    assert!(place.contains(" of war 3, at offset "), "{place}");
    assert!(place.ends_with("its kind is 9, and 4 is the last"), "{place}");
    let place = first_line(|campaign| campaign.ledger[2].points[0].year = 10_000);
    let tag = String::from_utf8(isles().ledger[2].tag.to_vec()).expect("it is a tag");
    assert!(place.contains(&format!(" of the ledger of {tag} (row 2), at offset ")), "{place}");
    let place = first_line(|campaign| campaign.ledger[2].tag = *b"A B");
    assert!(place.starts_with("ledger of A B (row 2), at offset "), "{place}");
    let place = first_line(|campaign| campaign.provinces[7].id = 900);
    assert!(
        place.starts_with("province 900 (row 7), at offset 277: its id is above 18"),
        "{place}"
    );
}

/// Other rows are told only where they are asked for: a bad date in a large record is told in few lines.
#[test]
fn one_bad_date_in_a_large_record() {
    let mut campaign = at_limits();
    campaign.provinces[0].events[0].date = 14440229;
    let file = written("large.atl", &pack(&campaign));
    let ran = run(&["describe", file.text()]);
    assert!(ran.out.lines().count() < 30, "{}", ran.out.lines().count());
    assert!(ran
        .out
        .lines()
        .next()
        .is_some_and(|line| line.contains(": owner event (row 0) of province ")));
    let all = run(&["describe", file.text(), "--rows"]);
    assert!(all.out.lines().count() > 1_000_000 && all.out.starts_with(&ran.out[..200]));
}

/// Every offence that can be told, as many as are asked for.
#[test]
fn every_offence() {
    let spoil = |campaign: &mut Campaign| {
        campaign.flags = 4;
        campaign.countries[0].tag = *b"G B";
        campaign.provinces[2].owner = *b"\x1b[m";
        campaign
            .ledger
            .iter_mut()
            .flat_map(|ledger| &mut ledger.points)
            .for_each(|point| point.year = 10_000);
        campaign.current = 14000101;
    };
    let offences = |rest: &[&str]| -> Vec<String> {
        let out = described(spoil, rest).out;
        out.lines().filter(|line| line.contains(", at offset ")).map(str::to_string).collect()
    };
    let all = offences(&[]);
    assert_eq!(all.len(), 1 + 1 + 1 + 13 + 1, "{all:?}");
    assert!(all[0].starts_with("the head, at offset 5: its flags are "), "{all:?}");
    assert!(all[1].starts_with("refused 4: country G B (row 0), at offset 44: "), "{all:?}");
    assert!(all[2].contains("its owner is `\\x1b[m`, the bytes [1b, 5b, 6d]"), "{all:?}");
    assert!(
        all[16].starts_with("refused 8: the head, at offset 10: the current date 1400-01-01"),
        "{all:?}"
    );
    assert_eq!(offences(&["--most", "3"]), all[..3]);
    let ran = described(spoil, &["--most=3"]);
    assert!(ran.out.contains("\nand 14 more: `--most N` tells as many\n"), "{}", ran.out);
    let objects = described(spoil, &["--most=3", "--json"]).out;
    let lines: Vec<&str> = objects.lines().collect();
    assert_eq!((lines.len(), lines[3]), (5, r#"{"more_offences":14}"#));
    assert!(lines[..3].iter().all(|line| line.starts_with(r#"{"refused":"#)), "{objects}");
}

/// Several sizes that are wrong are told together.
#[test]
fn sizes() {
    let mut record = pack(&isles());
    for damage in [
        Damage::Write { offset: 14, width: 2, value: 2_001 },
        Damage::Write { offset: 40, width: 4, value: 1_000_001 },
    ] {
        damage.apply(&mut record);
    }
    let file = written("sizes.atl", &record);
    let out = run(&["describe", file.text()]).out;
    assert!(
        out.contains(": the head, at offset 14: count C is 2001, and its limit 2000\n"),
        "{out}"
    );
    assert!(
        out.contains("the head, at offset 40: count Y is 1000001, and its limit 1000000\n"),
        "{out}"
    );
}

/// Of a file without end no more is read than the largest record has.
#[cfg(target_os = "linux")]
#[test]
fn without_end() {
    for command in ["check", "describe", "nations"] {
        assert_eq!(run(&[command, "/dev/zero"]).status, 1, "{command}");
    }
    let out = run(&["describe", "/dev/zero"]).out;
    assert!(out.contains("/dev/zero: more than 7776044 bytes, refused\n"), "{out}");
}

/// The product stands without what is only for tests.
#[test]
fn no_test_crate_is_needed() {
    for manifest in [include_str!("../../Cargo.toml"), include_str!("../../../Cargo.toml")] {
        let needed =
            manifest.split("[dependencies]").nth(1).and_then(|rest| rest.split('[').next());
        assert!(needed.is_some_and(|needed| !needed.contains("chronicle_trial")), "{manifest}");
    }
}
