use super::*;
use crate::pack::{pack, Campaign, LedgerName, Point};
use crate::sample;

fn number_of(campaign: &Campaign) -> u8 {
    refusal_number(&pack(campaign))
}

#[test]
fn worked_record_passes_and_no_shorter_or_longer_one() {
    assert_eq!(refusal_number(sample::WORKED), 0);
    for length in 0..sample::WORKED.len() {
        let expected = if length < HEAD { 1 } else { 3 };
        assert_eq!(refusal_number(&sample::WORKED[..length]), expected);
    }
    let longer = [&sample::WORKED[..], b"\0"].concat();
    assert_eq!(refusal_number(&longer), 3);
}

#[test]
fn february_has_28_days() {
    let mut campaign = sample::worked();
    campaign.start = 14440228;
    assert_eq!(number_of(&campaign), 0);
    campaign.start = 14440229;
    assert_eq!(number_of(&campaign), 5);
}

#[test]
fn every_month_ends_where_it_should() {
    let days = [31, 28, 31, 30, 31, 30, 31, 31, 30, 31, 30, 31];
    for (month, days) in (1u32..).zip(days) {
        let date = |day: u32| 14440000 + month * 100 + day;
        assert_eq!(check_date(date(0)), Err(Refusal::BadDate));
        assert_eq!(check_date(date(1)), Ok(()));
        assert_eq!(check_date(date(days)), Ok(()));
        assert_eq!(check_date(date(days + 1)), Err(Refusal::BadDate));
    }
    for (date, good) in [(101, false), (10101, true), (99991231, true), (100000101, false)] {
        assert_eq!(check_date(date).is_ok(), good, "{date}");
    }
    assert_eq!(check_date(14440001), Err(Refusal::BadDate));
    assert_eq!(check_date(14441301), Err(Refusal::BadDate));
    assert_eq!(check_date(u32::MAX), Err(Refusal::BadDate));
}

#[test]
fn ledger_year_9999_passes_and_10000_is_9() {
    let mut campaign = sample::worked();
    let point = Point { year: 9999, value: 0 };
    campaign.ledger.push(LedgerName { tag: *b"ENG", points: vec![point] });
    assert_eq!(number_of(&campaign), 0);
    campaign.ledger[0].points[0].year = 10_000;
    assert_eq!(number_of(&campaign), 9);
}

#[test]
fn id_p_passes_and_the_next_is_7() {
    let mut campaign = sample::worked();
    campaign.provinces[0].id = 0;
    assert_eq!(number_of(&campaign), 0);
    campaign.provinces[1].id = 3;
    assert_eq!(number_of(&campaign), 7);
    campaign.provinces[1].id = 0;
    assert_eq!(number_of(&campaign), 7);
}

#[test]
fn tag_bytes() {
    for byte in 0..=255u8 {
        let good = matches!(byte, b'0'..=b'9' | b'A'..=b'Z' | b'a'..=b'z' | b'-');
        for place in 0..3 {
            let mut tag = *b"ENG";
            tag[place] = byte;
            assert_eq!(check_tag(tag).is_ok(), good, "{byte}");
        }
    }
}

#[test]
fn first_bad_field_decides_then_repeats_then_dates() {
    let mut campaign = sample::worked();
    campaign.current = 14440101;
    assert_eq!(number_of(&campaign), 8);
    campaign.countries[1].tag = *b"GBR";
    assert_eq!(number_of(&campaign), 7);
    campaign.provinces[1].events[0].tag[0] = b'_';
    assert_eq!(number_of(&campaign), 4);
    campaign.provinces[1].events[0].date = 0;
    assert_eq!(number_of(&campaign), 5);
    campaign.flags = 4;
    assert_eq!(number_of(&campaign), 6);
}
