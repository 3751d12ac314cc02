//! `chronicle page` of records of any size; that its pages are the library's is tested beside its code.

use chronicle_trial::edges;
use chronicle_trial::extremes::pages::{one_slot, padded, switched, to_and_fro};
use chronicle_trial::pack::{pack, Campaign};
use chronicle_trial::sample::worked;

use super::{run, told, written};

fn page(campaign: &Campaign, tags: &[&str]) -> String {
    let file = written("page.atl", &pack(campaign));
    told(run(&[&["page", file.text()], tags].concat()))
}

/// Of more bytes, changes and entries than the library's page holds.
#[test]
fn of_any_size() {
    for bytes in [65_536, 65_537, 200_000] {
        let expected = "selected 1\nGBR ENG GBR 3 living\n";
        assert_eq!(page(&padded(worked(), bytes), &["GBR"]), expected, "{bytes}");
    }
    assert_eq!(page(&to_and_fro(4_001), &["ENG"]), "selected 1\nENG ENG ENG 0 living\n");
    let expected = "selected 2\nENG ENG ENG 2600 annexed\nFRA FRA FRA 2600 living\n";
    assert_eq!(page(&one_slot(2_600), &["ENG", "FRA"]), expected);
    assert_eq!(
        page(&switched(to_and_fro(0), 5_001), &["ENG"]),
        "selected 1\nENG ENG ENG 5001 living\n"
    );
}

/// As the library does, a record is refused before a tag that is none.
#[test]
fn refusals() {
    for edge in edges::all().iter().step_by(7) {
        let file = written("edge.atl", &edge.record);
        for tags in [&["GBR"][..], &[], &["GB"]] {
            let ran = run(&[&["page", file.text()], tags].concat());
            let number = if edge.number == 0 && tags == ["GB"] { 12 } else { edge.number };
            let status = match number {
                0 => 0,
                12 => 2,
                _ => 1,
            };
            assert_eq!(ran.status, status, "{} {ran:?}", edge.name);
            assert!(number == 0 || ran.err.contains(&format!(": refused {number}: ")), "{ran:?}");
        }
    }
}
