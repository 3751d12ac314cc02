//! Players, histories and the starting country: what the campaigns that are compared have, and that a
//! difference is noticed.
#![cfg(found)]

use chronicle_oracle::compare::compare;
use chronicle_oracle::playing::Played;
use chronicle_oracle::rust::{nation_events, Rust};
use chronicle_oracle::seen::Seen;
use chronicle_trial::adversary::players;
use chronicle_trial::generate::Random;
use chronicle_trial::model;
use chronicle_trial::pack::{pack, Campaign, Country, HUMAN, IRONMAN, WAS_PLAYER};

/// What the counts of players, histories and starting countries begin with.
const KINDS: [&str; 3] = ["player: ", "history: ", "start: "];

/// Each is to be met in one of two hundred campaigns, or oftener.
#[test]
fn players_are_drawn() {
    let mut random = Random::new(1_002);
    let mut seen = Seen::default();
    for number in 0..2_000 {
        let campaign = players::campaign(&mut random);
        assert_eq!(compare(&campaign, number, 3, &mut seen), Ok(()));
    }
    for kind in KINDS {
        let of_kind: Vec<_> = seen.all().filter(|(what, _)| what.starts_with(kind)).collect();
        assert!(of_kind.len() >= 7, "{kind}: {seen}");
        let rare: Vec<_> = of_kind.iter().filter(|(_, times)| *times < 10).collect();
        assert!(rare.is_empty(), "{rare:?}");
    }
}

/// The Rust of one campaign and the model of another, which has a name, a tag, a flag or a country
/// more.
#[test]
fn a_difference_is_noticed() {
    let strings = ["Ann", "AAA", "Bob", "BBB"].map(|text| text.as_bytes().to_vec()).to_vec();
    let country = |tag: &[u8; 3]| Country { tag: *tag, flags: WAS_PLAYER, ..Country::default() };
    let countries = vec![country(b"AAA"), country(b"BBB"), country(b"CCC")];
    let (start, current) = (14440101, 14500101);
    let campaign = Campaign { start, current, countries, strings, ..Campaign::default() };
    let alterations: [fn(&mut Campaign); 4] = [
        |campaign| campaign.strings[0] = b"Anna".to_vec(),
        |campaign| campaign.strings[1] = b"CCC".to_vec(),
        |campaign| campaign.countries[0].flags |= HUMAN,
        |campaign| campaign.countries[2].flags = 0,
    ];
    let rust = Rust::of(&campaign);
    assert_eq!(told_by(&rust, &campaign), [Ok(()), Ok(())]);
    for (number, alter) in alterations.into_iter().enumerate() {
        let mut altered = campaign.clone();
        alter(&mut altered);
        let [players, histories] = told_by(&rust, &altered);
        assert_eq!(players.is_err(), number < 2, "{number}");
        assert!(histories.is_err(), "{number}");
    }
    // Nobody has switched, so that ironman changes nothing.
    let ironman = Campaign { flags: IRONMAN, ..campaign };
    assert_eq!(told_by(&rust, &ironman), [Ok(()), Ok(())]);
}

fn told_by(rust: &Rust, campaign: &Campaign) -> [Result<(), String>; 2] {
    let nations = model::chronicle(campaign).nations;
    let theirs: Vec<_> = nations.iter().map(nation_events).collect();
    let record = pack(campaign);
    let played = Played { campaign, record: &record, rust };
    let (mut seen, mut random) = (Seen::default(), Random::new(1));
    let players = played.players(&mut seen);
    [players, played.histories(&nations, &theirs, &[*b"AAA"], &mut random, &mut seen)]
}
