//! Players that are hard to agree about: of countries that nobody was said to play, under texts that
//! are nearly tags, and of countries that were released and played, or nearly.

use chronicle::layout::LIMITS;

use super::ledgers;
use crate::generate::{repeat, Random};
use crate::pack::{
    Campaign, Country, Tag, HAS_SWITCHED_NATION, HUMAN, IRONMAN, MULTIPLAYER, WAS_PLAYER,
};

/// Some are nearly `Player`, and one is not UTF-8.
const NAMES: [&[u8]; 7] =
    [b"Player", b"Player ", b"player", b"", b"Ann", "Zoë".as_bytes(), b"Zo\xeb"];

/// Of two, three and four bytes; of those with three, one has a byte that is none of a tag's, one is
/// one letter, and one is not UTF-8.
const NO_TAGS: [&[u8]; 6] = [b"EN", b"ENGL", b"E_G", "€".as_bytes(), b"E\xffG", b""];

/// What keeps a country from being released and played.
const HINDRANCES: [fn(&mut Random, &mut Campaign, usize); 9] = [
    |_, campaign, _| campaign.flags &= !IRONMAN,
    |_, campaign, row| campaign.countries[row].flags &= !HUMAN,
    |_, campaign, row| campaign.countries[row].flags &= !HAS_SWITCHED_NATION,
    |_, campaign, row| campaign.countries[row].num_of_cities = 0,
    |_, campaign, row| campaign.countries[row].num_of_cities = -1,
    |_, campaign, row| add_player(campaign, campaign.countries[row].tag),
    another_with_players,
    latest_unlike_stored,
    |_, campaign, row| alone(campaign, row),
];

/// The next small campaign, with wars, ledgers and players of its own.
///
/// ```
/// use chronicle_trial::adversary::players;
/// use chronicle_trial::{generate::Random, pack::pack, reference::refusal_number};
///
/// assert_eq!(refusal_number(&pack(&players::campaign(&mut Random::new(1)))), 0);
/// ```
pub fn campaign(random: &mut Random) -> Campaign {
    let mut campaign = ledgers::campaign(random);
    play(random, &mut campaign);
    campaign
}

/// Gives a campaign other players, three times out of four.
///
/// ```
/// use chronicle_trial::adversary::players;
/// use chronicle_trial::{generate::Random, pack::pack, reference::refusal_number, sample};
///
/// let mut campaign = sample::worked();
/// players::play(&mut Random::new(1), &mut campaign);
/// assert_eq!(refusal_number(&pack(&campaign)), 0);
/// ```
pub fn play(random: &mut Random, campaign: &mut Campaign) {
    let countries = campaign.countries.len();
    match random.below(4) {
        0 => {}
        1 => anybody(random, campaign),
        _ if countries == 0 => anybody(random, campaign),
        _ => {
            let row = random.below(countries);
            release(random, campaign, row);
            if random.below(2) == 0 {
                random.pick(&HINDRANCES)(random, campaign, row);
            }
        }
    }
}

/// A campaign at the limits with as many players as there may be: of all its countries, of one, or of
/// one that was released and played, by the number.
///
/// ```
/// use chronicle_trial::{adversary::players, extremes::nations, model};
///
/// let campaign = players::at_limits(nations(1), 0);
/// assert_eq!(campaign.strings.len(), 1_000);
/// assert_eq!(model::players(&campaign).len(), 500);
/// ```
pub fn at_limits(mut campaign: Campaign, number: usize) -> Campaign {
    let mut random = Random::new(number as u64);
    campaign.countries.iter_mut().for_each(|country| country.flags |= WAS_PLAYER);
    campaign.flags = [0, IRONMAN, MULTIPLAYER][number % 3];
    let row = random.below(campaign.countries.len());
    let one = campaign.countries[row].tag;
    campaign.strings.clear();
    if number % 3 == 1 {
        campaign.countries[row].num_of_cities = 1;
        campaign.countries[row].flags = HUMAN | WAS_PLAYER | HAS_SWITCHED_NATION;
        settle(&mut campaign.countries[row]);
        add_player(&mut campaign, one);
    }
    while campaign.strings.len() < LIMITS.strings {
        let tag = campaign.countries[random.below(campaign.countries.len())].tag;
        let (name, text) = match number % 3 {
            0 => (&b"Ann"[..], tag),
            1 => (&b"Player"[..], tag),
            _ => (&b"Zo\xeb"[..], one),
        };
        campaign.strings.extend([name.to_vec(), text.to_vec()]);
    }
    campaign
}

/// Names and texts of all sorts, an odd one at the end now and then.
fn anybody(random: &mut Random, campaign: &mut Campaign) {
    campaign.strings.clear();
    let pairs = random.below(6);
    let tags: Vec<Tag> = campaign.countries.iter().map(|country| country.tag).collect();
    for _ in 0..pairs {
        let text = match random.below(4) {
            0 => random.pick(&NO_TAGS).to_vec(),
            1 => b"QQQ".to_vec(),
            _ if tags.is_empty() => b"QQQ".to_vec(),
            _ => random.pick(&tags).to_vec(),
        };
        campaign.strings.extend([random.pick(&NAMES).to_vec(), text]);
    }
    campaign.strings.extend(repeat(random.below(2), || b"Odd".to_vec()));
}

/// The country of this row has the only player, and some of the others had one.
fn release(random: &mut Random, campaign: &mut Campaign, row: usize) {
    campaign.flags |= IRONMAN;
    for country in &mut campaign.countries {
        country.flags = random.byte() & (HUMAN | WAS_PLAYER | HAS_SWITCHED_NATION);
    }
    let country = &mut campaign.countries[row];
    country.flags = HUMAN | WAS_PLAYER | HAS_SWITCHED_NATION;
    country.num_of_cities = random.pick(&[1, 1, i32::MAX]);
    if random.below(4) > 0 {
        settle(country);
    }
    let tag = country.tag;
    campaign.strings.clear();
    let skipped = random.below(3);
    for _ in 0..skipped {
        campaign.strings.extend([b"Bob".to_vec(), random.pick(&NO_TAGS).to_vec()]);
    }
    add_player(campaign, tag);
}

/// The country ends as it is stored.
fn settle(country: &mut Country) {
    country.switches.truncate(1);
    country.previous_tags.truncate(country.switches.len());
    if country.switches.is_empty() {
        country.previous_tags.clear();
    }
}

fn add_player(campaign: &mut Campaign, tag: Tag) {
    campaign.strings.extend([b"Ann".to_vec(), tag.to_vec()]);
}

fn another_with_players(random: &mut Random, campaign: &mut Campaign, row: usize) {
    let countries = campaign.countries.len();
    let other = (row + 1 + random.below(countries)) % countries;
    campaign.countries[other].flags |= WAS_PLAYER;
    add_player(campaign, campaign.countries[other].tag);
}

fn latest_unlike_stored(random: &mut Random, campaign: &mut Campaign, row: usize) {
    let other = campaign.countries[random.below(campaign.countries.len())].tag;
    let country = &mut campaign.countries[row];
    country.switches.clear();
    country.previous_tags = vec![other];
}

/// No other country was ever played.
fn alone(campaign: &mut Campaign, row: usize) {
    let others = campaign.countries.iter_mut().enumerate().filter(|(other, _)| *other != row);
    others.for_each(|(_, country)| country.flags &= !WAS_PLAYER);
}

#[cfg(test)]
mod tests {
    use super::*;
    use crate::pack::pack;
    use crate::reference::refusal_number;

    #[test]
    fn played_campaigns_are_accepted() {
        let mut random = Random::new(4);
        for round in 0..2_000 {
            let campaign = campaign(&mut random);
            assert_eq!(refusal_number(&pack(&campaign)), 0, "round {round}");
        }
    }
}
