//! The save that says to the Rust what a packed record says to the chronicle.
//!
//! Only what the compared functions of query.rs read is filled. Rows keep their order wherever
//! the Rust has an order: countries, switches, previous tags, owner events, wars, war events,
//! ledger names, points and strings are lists on both sides. Provinces are a hash map in the
//! Rust, which therefore meets them in an order of its own.

use std::collections::HashMap;

use chronicle_trial::pack::{
    self, Campaign, Date, LedgerName, Tag, HAS_SWITCHED_NATION, HUMAN, IRONMAN, MULTIPLAYER, NONE,
    WAS_PLAYER,
};
use eu4save::models::{
    ActiveWar, Battle, BattleSide, Country, CountryEvent, CountryHistory, Diplomacy, Eu4Save,
    GameDifficulty, GameState, GameplayOptions, GameplaySettings, LedgerData, LedgerDatum, Meta,
    PreviousWar, Province, ProvinceEvent, ProvinceHistory, SavegameVersion, TaxManpowerModifier,
    TradeNodes, WarEvent, WarHistory,
};
use eu4save::{CountryTag, Eu4Date, ProvinceId};

/// The Rust's tag; the campaign's tags are good ones.
pub fn tag(tag: Tag) -> CountryTag {
    CountryTag::new(tag)
}

/// The Rust's date.
pub fn date(date: Date) -> Eu4Date {
    Eu4Date::from_number(date)
}

/// The save of a campaign.
///
/// Strings are texts in a save: what is not UTF-8 is replaced, as names are before they are compared.
///
/// ```
/// use chronicle_trial::sample;
/// use chronicle_oracle::save::save;
///
/// let save = save(&sample::worked());
/// assert_eq!(save.game.countries[0].0, "GBR");
/// assert_eq!(save.game.provinces.len(), 2);
/// ```
pub fn save(campaign: &Campaign) -> Eu4Save {
    Eu4Save { meta: meta(campaign), game: game(campaign) }
}

fn meta(campaign: &Campaign) -> Meta {
    Meta {
        campaign_id: String::new(),
        save_game: String::new(),
        player: CountryTag::NONE,
        displayed_country_name: String::new(),
        campaign_length: 0,
        date: date(campaign.current),
        is_ironman: campaign.flags & IRONMAN != 0,
        multiplayer: campaign.flags & MULTIPLAYER != 0,
        not_observer: true,
        dlc_enabled: vec![],
        mod_enabled: vec![],
        mods_enabled_names: vec![],
        checksum: String::new(),
        savegame_version: version(),
        is_random_new_world: false,
    }
}

fn version() -> SavegameVersion {
    SavegameVersion { first: 1, second: 37, third: 0, fourth: 0, name: String::new() }
}

/// The wars are split in two: the Rust goes through active wars and then through previous ones.
fn game(campaign: &Campaign) -> GameState {
    let (active, previous) = campaign.wars.split_at(campaign.wars.len() / 2);
    GameState {
        players_countries: campaign.strings.iter().map(|bytes| text(bytes)).collect(),
        start_date: date(campaign.start),
        countries: campaign.countries.iter().map(|c| (tag(c.tag), country(c))).collect(),
        provinces: campaign.provinces.iter().map(province).collect(),
        nation_size_statistics: ledger(&campaign.ledger),
        active_wars: active.iter().map(active_war).collect(),
        previous_wars: previous.iter().map(previous_war).collect(),
        ..empty_game(date(campaign.start))
    }
}

/// What the compared functions do not read.
fn empty_game(start_date: Eu4Date) -> GameState {
    GameState {
        players_countries: vec![],
        current_age: String::new(),
        start_date,
        map_area_data: HashMap::new(),
        military_hegemon: None,
        naval_hegemon: None,
        economic_hegemon: None,
        trade: TradeNodes { nodes: vec![] },
        rebel_factions: vec![],
        religions: vec![],
        religion_instance_data: HashMap::new(),
        empire: None,
        countries: vec![],
        provinces: HashMap::new(),
        income_statistics: ledger(&[]),
        nation_size_statistics: ledger(&[]),
        score_statistics: ledger(&[]),
        inflation_statistics: ledger(&[]),
        active_wars: vec![],
        previous_wars: vec![],
        achievement_ok: false,
        achievement: vec![],
        completed_achievements: vec![],
        gameplay_settings: gameplay_settings(),
        diplomacy: diplomacy(),
        institutions: vec![],
        random_world: None,
    }
}

fn gameplay_settings() -> GameplaySettings {
    GameplaySettings {
        options: GameplayOptions {
            difficulty: GameDifficulty::Normal,
            tax_manpower_modifier: TaxManpowerModifier::Historical,
        },
    }
}

fn diplomacy() -> Diplomacy {
    Diplomacy {
        dependencies: vec![],
        alliances: vec![],
        royal_marriages: vec![],
        warnings: vec![],
        subsidies: vec![],
        guarantees: vec![],
        transfer_trade_powers: vec![],
        war_reparations: vec![],
        steer_trades: vec![],
        condottieris: vec![],
    }
}

fn country(row: &pack::Country) -> Country {
    let switch = |s: &pack::Switch| (date(s.date), CountryEvent::ChangedTagFrom(tag(s.from)));
    Country {
        human: row.flags & HUMAN != 0,
        was_player: row.flags & WAS_PLAYER != 0,
        has_switched_nation: row.flags & HAS_SWITCHED_NATION != 0,
        num_of_cities: row.num_of_cities,
        previous_country_tags: row.previous_tags.iter().copied().map(tag).collect(),
        history: CountryHistory {
            events: row.switches.iter().map(switch).collect(),
            ..CountryHistory::default()
        },
        ..Country::default()
    }
}

/// A province that nobody owns has no owner in a save.
fn province(row: &pack::Province) -> (ProvinceId, Province) {
    let event = |e: &pack::OwnerEvent| (date(e.date), ProvinceEvent::Owner(tag(e.tag)));
    let history = ProvinceHistory {
        owner: (row.owner != NONE).then(|| tag(row.owner)),
        events: row.events.iter().map(event).collect(),
        ..ProvinceHistory::default()
    };
    (ProvinceId::new(i32::from(row.id)), Province { history, ..Province::default() })
}

fn active_war(row: &pack::War) -> ActiveWar {
    ActiveWar {
        name: String::new(),
        history: war_history(row),
        participants: vec![],
        original_attacker: CountryTag::NONE,
        original_defender: CountryTag::NONE,
    }
}

fn previous_war(row: &pack::War) -> PreviousWar {
    let ActiveWar { name, history, participants, original_attacker, original_defender } =
        active_war(row);
    PreviousWar { name, history, participants, original_attacker, original_defender }
}

fn war_history(row: &pack::War) -> WarHistory {
    let event = |e: &pack::WarEvent| (date(e.date), war_event(e));
    WarHistory { events: row.events.iter().map(event).collect(), ..WarHistory::default() }
}

fn war_event(row: &pack::WarEvent) -> WarEvent {
    let tag = tag(row.tag);
    match row.kind {
        0 => WarEvent::AddAttacker(tag),
        1 => WarEvent::AddDefender(tag),
        2 => WarEvent::RemoveAttacker(tag),
        3 => WarEvent::RemoveDefender(tag),
        _ => WarEvent::Battle(battle(tag)),
    }
}

fn battle(tag: CountryTag) -> Battle {
    let side = BattleSide {
        cavalry: 0,
        infantry: 0,
        artillery: 0,
        heavy_ship: 0,
        light_ship: 0,
        galley: 0,
        transport: 0,
        losses: 0,
        country: tag,
        commander: None,
    };
    Battle {
        name: String::new(),
        location: ProvinceId::default(),
        attacker_won: true,
        attacker: side.clone(),
        defender: side,
        winner_alliance: 0.0,
        loser_alliance: 0.0,
    }
}

fn ledger(names: &[LedgerName]) -> LedgerData {
    let datum = |name: &LedgerName| LedgerDatum {
        name: tag(name.tag),
        data: name.points.iter().map(|point| (point.year, point.value)).collect(),
    };
    LedgerData { ledger: names.iter().map(datum).collect() }
}

fn text(bytes: &[u8]) -> String {
    String::from_utf8_lossy(bytes).into_owned()
}
