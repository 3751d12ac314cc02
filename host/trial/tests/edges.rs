//! The rules' edges and the order of the numbers, through the C function.

use chronicle::raw::check;
use chronicle::Refusal;
use chronicle_trial::pack::{pack, LedgerName, Point};
use chronicle_trial::{edges, number, sample};

#[test]
fn every_edge_gets_its_number() {
    for edge in edges::all() {
        assert_eq!(number(check(&edge.record)), edge.number, "{}", edge.name);
    }
}

#[test]
fn edges_cover_every_number() {
    let edges = edges::all();
    for number in 0..=9 {
        let of_number = edges.iter().filter(|edge| edge.number == number).count();
        assert!(of_number >= 5, "number {number} has {of_number} edges");
    }
}

#[test]
fn worked_record() {
    assert_eq!(check(sample::WORKED), Ok(()));
    assert_eq!(check(&sample::WORKED[..102]), Err(Refusal::SizesDisagree));
}

#[test]
fn no_leap_days() {
    let mut campaign = sample::worked();
    campaign.start = 14440228;
    assert_eq!(check(&pack(&campaign)), Ok(()));
    campaign.start = 14440229;
    assert_eq!(check(&pack(&campaign)), Err(Refusal::BadDate));
}

#[test]
fn ledger_year_9999_passes_and_10000_is_9() {
    let mut campaign = sample::worked();
    let points = vec![Point { year: 9999, value: 0 }];
    campaign.ledger.push(LedgerName { tag: *b"ENG", points });
    assert_eq!(check(&pack(&campaign)), Ok(()));
    campaign.ledger[0].points[0].year = 10_000;
    assert_eq!(check(&pack(&campaign)), Err(Refusal::LedgerYear));
}

#[test]
fn id_p_passes_and_the_next_is_7() {
    let mut campaign = sample::worked();
    assert_eq!(check(&pack(&campaign)), Ok(()));
    campaign.provinces[1].id = 3;
    assert_eq!(check(&pack(&campaign)), Err(Refusal::Repeated));
}
