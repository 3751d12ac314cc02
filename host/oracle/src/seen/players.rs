//! What is hard about players, about the countries they played and about which was the first.

use std::collections::BTreeSet;

use chronicle_trial::model;
use chronicle_trial::pack::{
    Campaign, Country, Tag, HAS_SWITCHED_NATION, HUMAN, IRONMAN, MULTIPLAYER, WAS_PLAYER,
};
use chronicle_trial::rows::{History, Kind, Nation, Player};

use super::Seen;

/// What alone keeps a country that looks released and played from a leftover's initial.
const HINDERED: [&str; 8] = [
    "history: released but for ironman",
    "history: released but for another with players",
    "history: released but for no human",
    "history: released but for a second player",
    "history: released but for another latest tag",
    "history: released but for no switch",
    "history: released but for no city",
    "history: released but for less than no city",
];

impl Seen {
    /// Notes the hard cases of a campaign's strings.
    ///
    /// ```
    /// use chronicle_trial::{model, sample};
    /// use chronicle_oracle::seen::Seen;
    ///
    /// let mut campaign = sample::worked();
    /// campaign.strings = ["Player", "ENG", "Ann", "QQQ"].map(|s| s.as_bytes().to_vec()).to_vec();
    /// let mut seen = Seen::default();
    /// seen.players(&campaign, &model::players(&campaign));
    /// assert_eq!(seen.times("player: named Player, and none"), 1);
    /// assert_eq!(seen.times("player: of no country"), 1);
    /// assert!(seen.never().contains(&"player: two of one country"));
    /// ```
    pub fn players(&mut self, campaign: &Campaign, players: &[Player]) {
        let (pairs, odd) = campaign.strings.as_chunks::<2>();
        let any = |test: &dyn Fn(&[u8], &[u8]) -> bool| pairs.iter().any(|[n, t]| test(n, t));
        let multiplayer = campaign.flags & MULTIPLAYER != 0;
        self.if_any("player: in multiplayer", multiplayer && !players.is_empty());
        self.if_any("player: not in multiplayer", !multiplayer && !players.is_empty());
        let named = any(&|name, text| name == b"Player" && is_tag(text));
        self.if_any("player: named Player", named && multiplayer);
        self.if_any("player: named Player, and none", named && !multiplayer);
        self.if_any("player: a text of two bytes", any(&|_, text| text.len() == 2));
        self.if_any("player: a text of four bytes", any(&|_, text| text.len() == 4));
        self.if_any("player: a bad byte of three", any(&|_, t| t.len() == 3 && !is_tag(t)));
        self.if_any("player: a text that is not UTF-8", any(&|_, text| !is_text(text)));
        self.if_any("player: a string left over", !odd.is_empty());
        let name = |player: &Player| &campaign.strings[player.name][..];
        self.if_any("player: a name that is not UTF-8", players.iter().any(|p| !is_text(name(p))));
        let tags: BTreeSet<Tag> = players.iter().map(|player| player.tag).collect();
        self.if_any("player: two of one country", tags.len() < players.len());
        let country = |tag: &Tag| campaign.countries.iter().find(|c| c.tag == *tag);
        let was_none = |country: &Country| country.flags & WAS_PLAYER == 0;
        self.if_any("player: of no country", tags.iter().any(|tag| country(tag).is_none()));
        self.if_any(
            "player: of a country that was none",
            tags.iter().any(|tag| country(tag).is_some_and(was_none)),
        );
    }

    /// Notes the hard cases of a campaign's histories by a list of nations.
    ///
    /// ```
    /// use chronicle_trial::{model, pack::WAS_PLAYER, sample};
    /// use chronicle_oracle::seen::Seen;
    ///
    /// let mut campaign = sample::worked();
    /// campaign.countries.iter_mut().for_each(|country| country.flags = WAS_PLAYER);
    /// let mut seen = Seen::default();
    /// seen.histories(&campaign, &[], &model::histories(&campaign, &[]));
    /// assert_eq!(seen.times("history: several leftovers"), 1);
    /// assert!(seen.never().contains(&"history: released but for ironman"));
    /// ```
    pub fn histories(&mut self, campaign: &Campaign, nations: &[Nation], histories: &[History]) {
        let any = |test: &dyn Fn(&History) -> bool| histories.iter().any(test);
        let stored = |history: &History| {
            nations.iter().filter(|nation| nation.stored == history.stored).count()
        };
        self.if_any("history: bare", any(&|h| h.nation.is_none()));
        self.if_any("history: of a later nation", any(&|h| h.nation > Some(0)));
        self.if_any("history: two nations stored under it", any(&|h| stored(h) > 1));
        self.if_any("history: latest unlike stored", any(&|h| h.latest != h.stored));
        self.if_any("history: human", any(&|h| h.human));
        self.if_any("history: two players", any(&|h| h.names.len() == 2));
        let with_names = histories.iter().filter(|history| !history.names.is_empty()).count();
        self.if_any("history: names behind another's", with_names > 1);
        self.if_any("history: nobody was played", histories.is_empty());
        // Without ironman nobody takes anything.
        let plain = Campaign { flags: campaign.flags & !IRONMAN, ..campaign.clone() };
        let before = model::histories(&plain, nations);
        let (named, leftovers) = before.split_at(with_names);
        self.if_any("history: a leftover", !leftovers.is_empty());
        self.if_any("history: several leftovers", leftovers.len() > 1);
        self.if_any("history: nothing but leftovers", named.is_empty() && !leftovers.is_empty());
        self.released(campaign, named, leftovers);
    }

    fn released(&mut self, campaign: &Campaign, named: &[History], leftovers: &[History]) {
        let hindered = hindrances(campaign, named);
        let hindrances = hindered.iter().filter(|hindered| **hindered).count();
        let single = hindrances == 1 && !leftovers.is_empty();
        for (what, hindered) in HINDERED.into_iter().zip(hindered) {
            self.if_any(what, single && hindered);
        }
        let free = hindrances == 0;
        let own = named.first().map(|first| first.initial);
        let last = leftovers.last().map(|leftover| leftover.initial);
        let others = leftovers.iter().rev().skip(1).any(|other| Some(other.initial) != last);
        self.if_any("history: released, and nothing left over", free && leftovers.is_empty());
        self.if_any("history: takes the only leftover's initial", free && leftovers.len() == 1);
        self.if_any("history: takes the last of several initials", free && others);
        self.if_any(
            "history: takes another initial than its own",
            free && last.is_some() && last != own,
        );
        self.if_any(
            "history: takes a nation's initial",
            free && leftovers.last().is_some_and(|leftover| leftover.nation.is_some()),
        );
        let one_city =
            named.first().is_some_and(|first| country(campaign, first).num_of_cities == 1);
        self.if_any("history: takes it with one city", free && last.is_some() && one_city);
    }

    /// Notes how hard it is to say which country was the first of these histories.
    ///
    /// ```
    /// use chronicle_oracle::seen::Seen;
    ///
    /// let mut seen = Seen::default();
    /// seen.starting(&[], &[]);
    /// assert_eq!(seen.times("start: of no history"), 1);
    /// assert!(seen.never().contains(&"start: a sole history that appeared"));
    /// ```
    pub fn starting(&mut self, nations: &[Nation], histories: &[History]) {
        let appeared = |history: &&History| {
            let entries = history.nation.map_or(&[][..], |number| &nations[number].entries);
            entries.iter().any(|entry| entry.kind == Kind::Appeared)
        };
        let all = histories.len();
        let there = histories.iter().filter(appeared).count();
        let lacking = all - there;
        self.if_any("start: of no history", all == 0);
        self.if_any("start: a sole history that appeared", all == 1 && there == 1);
        self.if_any("start: a sole history that lacks Appeared", all == 1 && lacking == 1);
        self.if_any("start: one of several lacks Appeared", all > 1 && lacking == 1);
        self.if_any("start: two lack Appeared", lacking > 1);
        self.if_any("start: several, and all appeared", all > 1 && lacking == 0);
        let bare = histories.iter().find(|history| !appeared(history));
        let bare = bare.is_some_and(|history| history.nation.is_none());
        self.if_any("start: a bare one lacks Appeared", all > 1 && lacking == 1 && bare);
    }
}

/// As [`HINDERED`] has them; all, if nobody has players.
fn hindrances(campaign: &Campaign, named: &[History]) -> [bool; 8] {
    let Some(first) = named.first() else { return [true; 8] };
    let country = country(campaign, first);
    [
        campaign.flags & IRONMAN == 0,
        named.len() > 1,
        country.flags & HUMAN == 0,
        first.names.len() > 1,
        first.latest != first.stored,
        country.flags & HAS_SWITCHED_NATION == 0,
        country.num_of_cities == 0,
        country.num_of_cities < 0,
    ]
}

fn country<'a>(campaign: &'a Campaign, history: &History) -> &'a Country {
    let country = campaign.countries.iter().find(|country| country.tag == history.stored);
    country.expect("a history is stored under a country's tag")
}

fn is_tag(text: &[u8]) -> bool {
    text.len() == 3 && text.iter().all(|&b| b.is_ascii_alphanumeric() || b == b'-')
}

fn is_text(bytes: &[u8]) -> bool {
    std::str::from_utf8(bytes).is_ok()
}
