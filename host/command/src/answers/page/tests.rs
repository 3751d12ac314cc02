//! Pages held against those of the library.

use chronicle::{Chronicle, CountryTag, Record, Refusal};
use chronicle_trial::adversary::players;
use chronicle_trial::adversary::selections::{draw, selection, spoiled};
use chronicle_trial::extremes;
use chronicle_trial::extremes::pages::{one_slot, padded, switched, to_and_fro, whole_page};
use chronicle_trial::generate::Random;
use chronicle_trial::model;
use chronicle_trial::pack::{pack, Campaign, Tag};
use chronicle_trial::sample::worked;
use chronicle_trial::told::page as library;

use super::lines;

/// Pages drawn: so many campaigns, and so many selections of each.
const CAMPAIGNS: usize = 4_000;
const SELECTIONS: usize = 50;

fn printed(chronicle: &Chronicle<'_>, tags: &[Tag]) -> Vec<u8> {
    let tags: Vec<CountryTag> =
        tags.iter().filter_map(|&tag| CountryTag::create(tag).ok()).collect();
    let text: String = lines(chronicle, &tags).iter().map(|line| format!("{line}\n")).collect();
    text.into_bytes()
}

/// The two hundred thousand, each as the library prints it.
#[test]
fn drawn_pages_are_the_librarys() {
    let (mut random, mut met) = (Random::new(91), [0; 3]);
    for _ in 0..CAMPAIGNS {
        let campaign = players::campaign(&mut random);
        let bytes = pack(&campaign);
        let record = Record::open(&bytes).expect("it is accepted");
        let chronicle = record.chronicle().expect("there is room");
        let nations = model::chronicle(&campaign).nations;
        for _ in 0..SELECTIONS {
            let tags = draw(&mut random, &nations, &[*b"ENG", *b"---"]);
            let page = printed(&chronicle, &tags);
            assert_eq!(library(&bytes, &selection(&tags)).as_ref(), Ok(&page));
            let page = String::from_utf8(page).expect("it is text");
            for (met, state) in met.iter_mut().zip(["living", "annexed", "absent"]) {
                *met += page.matches(state).count();
            }
        }
    }
    assert!(met.iter().all(|&times| times > 10_000), "{met:?}");
}

/// Just below, at and just above each limit of the library's page.
fn near_limits() -> Vec<Campaign> {
    let mut campaigns: Vec<Campaign> = [3_999, 4_000, 4_001].map(to_and_fro).to_vec();
    let entries = [
        (2_499, 1),
        (2_499, 2),
        (2_499, 3),
        (2_500, 0),
        (2_500, 1),
        (0, 5_001),
        (1, 4_998),
        (1, 4_999),
    ];
    campaigns.extend(entries.map(|(changes, switches)| switched(one_slot(changes), switches)));
    campaigns.extend([65_535, 65_536, 65_537].map(|bytes| padded(worked(), bytes)));
    campaigns.extend([300, 2_000].map(whole_page));
    campaigns
}

/// Where the library's page has no room there is one here, by the model's nations.
#[test]
fn near_the_limits() {
    let (mut answered, mut without) = (0, 0);
    for campaign in near_limits() {
        let bytes = pack(&campaign);
        let record = Record::open(&bytes).expect("it is accepted");
        let chronicle = record.chronicle().expect("there is room");
        let stored = campaign.countries.iter().map(|country| country.tag);
        let tags: Vec<Tag> = stored.chain([*b"QQQ"]).collect();
        for count in [0, 1, tags.len(), 16_384, 16_385] {
            let tags: Vec<Tag> = tags.iter().cycle().take(count).copied().collect();
            let page = printed(&chronicle, &tags);
            match library(&bytes, &selection(&tags)) {
                Ok(theirs) => {
                    assert_eq!(page, theirs);
                    answered += 1;
                }
                Err(refusal) => {
                    assert_eq!(
                        (refusal, &page),
                        (Refusal::NoRoom(None), &of_model(&campaign, &tags))
                    );
                    without += 1;
                }
            }
        }
    }
    assert!(answered > 30 && without > 20, "{answered} {without}");
}

/// The page of any campaign, by the model's nations.
fn of_model(campaign: &Campaign, tags: &[Tag]) -> Vec<u8> {
    let mut chronicle = model::chronicle(campaign);
    let text = |tag: &Tag| String::from_utf8_lossy(tag).into_owned();
    let mut page = format!("selected {}\n", tags.len());
    for tag in tags {
        let nation = chronicle.nations.iter().position(|nation| nation.stored == *tag);
        let Some(place) = nation else {
            page += &format!("{} absent\n", text(tag));
            continue;
        };
        // Of one nation alone the model's page has room, unless its own entries are too many.
        chronicle.nations.swap(0, place);
        let nation = &chronicle.nations[0];
        let annexed = nation.entries.iter().rev().find_map(|entry| match entry.kind {
            chronicle_trial::rows::Kind::Switch(_) => None,
            kind => Some(kind == chronicle_trial::rows::Kind::Annexed),
        });
        let state = if annexed == Some(true) { "annexed" } else { "living" };
        let (initial, latest) = (text(&nation.initial), text(&nation.latest));
        page += &format!("{} {initial} {latest} {} {state}\n", text(tag), nation.entries.len());
        chronicle.nations.swap(0, place);
    }
    page.into_bytes()
}

/// Of a record at all limits, some hundred times as large as the library's page holds.
#[test]
fn of_the_largest_records() {
    for (name, campaign) in extremes::ALL.iter().take(4) {
        let campaign = campaign();
        let bytes = pack(&campaign);
        let record = Record::open(&bytes).expect("it is accepted");
        let chronicle = record.chronicle().expect("there is room");
        let tags: Vec<Tag> =
            campaign.countries.iter().take(50).map(|country| country.tag).collect();
        assert_eq!(printed(&chronicle, &tags), of_model(&campaign, &tags), "{name}");
    }
}

/// What the library refuses as no selection, the command reads no tags from.
#[test]
fn what_is_no_selection() {
    let (mut random, mut refused) = (Random::new(92), 0);
    for _ in 0..10_000 {
        let tags = draw(&mut random, &[], &[*b"ENG", *b"FRA"]);
        let bytes = spoiled(&mut random, &tags);
        let theirs = library(chronicle_trial::sample::WORKED, &bytes);
        let line = |line: &[u8]| {
            std::str::from_utf8(line).ok()?.strip_suffix('\n')?.parse::<CountryTag>().ok()
        };
        let ours =
            bytes.split_inclusive(|&byte| byte == b'\n').map(line).collect::<Option<Vec<_>>>();
        assert_eq!(theirs.is_ok(), ours.is_some(), "{bytes:?}");
        refused += usize::from(ours.is_none());
    }
    assert!(refused > 9_000, "{refused}");
}
