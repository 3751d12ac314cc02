//! Players, histories and the starting country (Rules 8).

use crate::pack::{
    Campaign, Country, Tag, HAS_SWITCHED_NATION, HUMAN, IRONMAN, MULTIPLAYER, WAS_PLAYER,
};
use crate::rows::{History, Kind, Nation, Player};

/// The pairs of name and tag text that name a player.
///
/// ```
/// use chronicle_trial::{model::players, pack::Campaign, rows::Player};
///
/// let strings = ["Player", "ENG", "Ann", "FRA", "Bob", "nowhere", "odd"];
/// let strings = strings.map(|text| text.as_bytes().to_vec()).to_vec();
/// let campaign = Campaign { strings, ..Campaign::default() };
/// assert_eq!(players(&campaign), [Player { name: 2, tag: *b"FRA" }]);
/// ```
pub fn players(campaign: &Campaign) -> Vec<Player> {
    let strings = &campaign.strings;
    let pair = |name: usize| {
        let unnamed = strings[name] == b"Player" && campaign.flags & MULTIPLAYER == 0;
        let tag = tag_of(&strings[name + 1]).filter(|_| !unnamed)?;
        Some(Player { name, tag })
    };
    (0..strings.len() / 2).filter_map(|number| pair(2 * number)).collect()
}

fn tag_of(text: &[u8]) -> Option<Tag> {
    let tag: Tag = text.try_into().ok()?;
    tag.iter().all(|&byte| byte.is_ascii_alphanumeric() || byte == b'-').then_some(tag)
}

/// One history for each country that was a player's, those without players last.
///
/// ```
/// use chronicle_trial::{model::{chronicle, histories}, pack::WAS_PLAYER, sample};
///
/// let mut campaign = sample::worked();
/// campaign.countries[0].flags = WAS_PLAYER;
/// let histories = histories(&campaign, &chronicle(&campaign).nations);
/// assert_eq!(histories.len(), 1);
/// assert_eq!((histories[0].initial, histories[0].nation), (*b"ENG", Some(0)));
/// ```
pub fn histories(campaign: &Campaign, nations: &[Nation]) -> Vec<History> {
    let players = players(campaign);
    let played = campaign.countries.iter().filter(|country| country.flags & WAS_PLAYER != 0);
    let all = played.map(|country| history(country, nations, &players));
    let (mut named, mut leftovers): (Vec<_>, Vec<_>) = all.partition(|h| !h.names.is_empty());
    if let [only] = &mut named[..] {
        if campaign.flags & IRONMAN != 0 && released(campaign, only) {
            if let Some(last) = leftovers.pop() {
                only.initial = last.initial;
            }
        }
    }
    named.extend(leftovers);
    named
}

fn history(country: &Country, nations: &[Nation], players: &[Player]) -> History {
    let tag = country.tag;
    let number = nations.iter().position(|nation| nation.stored == tag);
    let [initial, latest, stored] = match number {
        Some(number) => [nations[number].initial, nations[number].latest, nations[number].stored],
        None => [tag; 3],
    };
    let names = players.iter().filter(|player| player.tag == tag).map(|player| player.name);
    History {
        initial,
        latest,
        stored,
        nation: number,
        human: country.flags & HUMAN != 0,
        names: names.collect(),
    }
}

/// Whether this looks like a nation that was released and then played.
fn released(campaign: &Campaign, history: &History) -> bool {
    let country = campaign.countries.iter().find(|country| country.tag == history.stored);
    history.human
        && history.names.len() == 1
        && history.stored == history.latest
        && country.is_some_and(|c| c.flags & HAS_SWITCHED_NATION != 0 && c.num_of_cities > 0)
}

/// The initial of the only history that never appeared; if all did, of a sole history.
///
/// ```
/// use chronicle_trial::{model::{chronicle, histories, starting_country}, pack::WAS_PLAYER, sample};
///
/// let mut campaign = sample::worked();
/// campaign.countries[0].flags = WAS_PLAYER;
/// let nations = chronicle(&campaign).nations;
/// let histories = histories(&campaign, &nations);
/// assert_eq!(starting_country(&histories, &nations), Some(*b"ENG"));
/// assert_eq!(starting_country(&[], &nations), None);
/// ```
pub fn starting_country(histories: &[History], nations: &[Nation]) -> Option<Tag> {
    let appeared = |history: &History| {
        let entries = history.nation.map_or(&[][..], |number| &nations[number].entries);
        entries.iter().any(|entry| entry.kind == Kind::Appeared)
    };
    let lacking: Vec<&History> = histories.iter().filter(|history| !appeared(history)).collect();
    let all: Vec<&History> = histories.iter().collect();
    match (&lacking[..], &all[..]) {
        ([only], _) | ([], [only]) => Some(only.initial),
        _ => None,
    }
}
