//! Players, histories and starting countries.

use chronicle::rows::{HISTORY_WORDS, PLAYER_WORDS};
use chronicle::Refusal;
use chronicle_trial::adversary::{draw_bare, players, tags_of};
use chronicle_trial::generate::Random;
use chronicle_trial::lists::altered_histories;
use chronicle_trial::model;
use chronicle_trial::model::histories_told;
use chronicle_trial::pack::{pack, Campaign};
use chronicle_trial::rows::{
    entry_words, history_words, name_words, nation_words, player_words, tag_word, Nation,
};

use super::{bad_record, count, ill_shaped, lent, without_room, Kind, Other, Vector, NOBODY};
use crate::playing::Played;
use crate::rust::{nation_events, player_history, Rust};

const SEED: u64 = 1451;

/// Campaigns whose players, and whose histories by their own nations and by altered ones, are stored.
const CAMPAIGNS: usize = 40;

/// What else is made of a vector about players, about histories and about a starting country.
const OTHERS: [Other; 4] = [falsified_players, of_a_bad_record, without_room, falsified_players];
const OTHERS_OF_HISTORIES: [Other; 5] =
    [falsified_histories, ill_shaped, bad_record, without_names, without_room];
const OTHERS_OF_STARTING: [Other; 3] = [falsified_start, ill_shaped, ill_shaped_histories];

/// The vectors about players, behind them those about histories, and last those about starting
/// countries.
pub fn list() -> Vec<Vector> {
    let mut random = Random::new(SEED);
    let [mut named, mut told, mut started] = [const { Vec::new() }; 3];
    for number in 0..CAMPAIGNS {
        let campaign = with_players(&mut random, number);
        let vector = players_of(&mut random, &campaign);
        named.push(OTHERS[number % OTHERS.len()](&mut random, &vector));
        named.push(vector);
        for nations in lent(&mut random, &campaign) {
            let vector = histories_of(&mut random, &campaign, &nations);
            let other = OTHERS_OF_HISTORIES[number % OTHERS_OF_HISTORIES.len()];
            told.push(settled(other(&mut random, &vector)));
            told.push(vector);
            let vector = start_of(&mut random, &campaign, &nations);
            let other = OTHERS_OF_STARTING[number % OTHERS_OF_STARTING.len()];
            started.push(other(&mut random, &vector));
            started.push(vector);
        }
    }
    [named, told, started].concat()
}

/// Draws until there are players and a country that was played; for every seventh, until two play one.
fn with_players(random: &mut Random, number: usize) -> Campaign {
    let least = if number.is_multiple_of(7) { 2 } else { 0 };
    loop {
        let mut campaign = draw_bare(random);
        players::play(random, &mut campaign);
        let histories = model::histories(&campaign, &[]);
        let names = histories.iter().map(|history| history.names.len()).max();
        if names >= Some(least) && !model::players(&campaign).is_empty() {
            return campaign;
        }
    }
}

fn players_of(random: &mut Random, campaign: &Campaign) -> Vector {
    let (record, rust) = (pack(campaign), Rust::of(campaign));
    let players = Played { campaign, record: &record, rust: &rust }.agreed_players();
    let rows = player_words(&players.expect("the Rust tells the same"));
    let vector = bare(Kind::Players, rows.len() + random.below(3), rows);
    Vector { record, ..vector }
}

fn histories_of(random: &mut Random, campaign: &Campaign, nations: &[Nation]) -> Vector {
    let (record, rust) = (pack(campaign), Rust::of(campaign));
    let theirs: Vec<_> = nations.iter().map(nation_events).collect();
    let played = Played { campaign, record: &record, rust: &rust };
    let (told, _) = played.agreed_histories(nations, &theirs).expect("the Rust tells the same");
    let (rows, names) = (history_words(&told), name_words(&told));
    let room = [rows.len() + random.below(3), names.len() + random.below(3)];
    let vector = bare(Kind::Histories, room[0], rows);
    let many = [&[count(room[1])][..], &names].concat();
    Vector { record, many, ..by(vector, nations) }
}

/// Of altered histories, every other time.
fn start_of(random: &mut Random, campaign: &Campaign, nations: &[Nation]) -> Vector {
    let theirs: Vec<_> = nations.iter().map(nation_events).collect();
    let mut told = model::histories(campaign, nations);
    if random.below(2) == 0 {
        told = altered_histories(random, &told, nations.len(), &tags_of(campaign));
    }
    let played: Vec<_> = told.iter().map(|history| player_history(history, &theirs)).collect();
    let start = Rust::of(campaign).starting_country(&played).map(tag_word);
    let vector = bare(Kind::Starting, 0, start.into_iter().collect());
    Vector { many: history_words(&told), ..by(vector, nations) }
}

/// A vector that lends neither a record nor a chronicle.
fn bare(kind: Kind, room: usize, answers: Vec<u32>) -> Vector {
    Vector {
        kind,
        falsified: false,
        record: vec![],
        nations: vec![],
        entries: vec![],
        single: vec![],
        many: vec![],
        room,
        answers: Ok(answers),
    }
}

/// The same with these nations lent.
fn by(vector: Vector, nations: &[Nation]) -> Vector {
    Vector { nations: nation_words(nations), entries: entry_words(nations), ..vector }
}

/// What is refused has no names.
fn settled(mut vector: Vector) -> Vector {
    if vector.answers.is_err() {
        vector.many.truncate(1);
    }
    vector
}

/// A player has another tag or another name, or is missing, or all are refused.
fn falsified_players(random: &mut Random, vector: &Vector) -> Vector {
    let mut vector = Vector { falsified: true, ..vector.clone() };
    let rows = vector.answers.as_mut().expect("the Rust refuses nothing");
    let row = PLAYER_WORDS * random.below(rows.len() / PLAYER_WORDS);
    match random.below(4) {
        0 => rows[row] += 1,
        1 => rows[row + 1] = tag_word(NOBODY),
        2 => rows.truncate(rows.len() - 2),
        _ => vector.answers = Err(Refusal::NoRoom(None)),
    }
    vector
}

/// A word of a history is another one, or of a name; one of either is missing, or all are refused.
fn falsified_histories(random: &mut Random, vector: &Vector) -> Vector {
    let mut vector = Vector { falsified: true, ..vector.clone() };
    let rows = vector.answers.as_mut().expect("the Rust refuses nothing");
    let row = HISTORY_WORDS * random.below(rows.len() / HISTORY_WORDS);
    let names = vector.many.len() - 1;
    match random.below(7) {
        0 => rows[row] = tag_word(NOBODY),
        1 => rows[row + 3] += 1,
        2 => rows[row + 4] ^= 1,
        3 => rows[row + 5 + random.below(2)] += 1,
        4 => rows.truncate(rows.len() - 7),
        5 if names > 0 => vector.many[names] += 2,
        _ => vector.answers = Err(Refusal::NotWellShaped),
    }
    vector
}

/// Another tag, none in place of one, one in place of none, or a refusal.
fn falsified_start(random: &mut Random, vector: &Vector) -> Vector {
    let start = vector.answers.as_ref().is_ok_and(|words| !words.is_empty());
    let answers = match random.below(3) {
        0 if start => Ok(vec![]),
        0 | 1 => Ok(vec![tag_word(NOBODY)]),
        _ => Err(Refusal::NotWellShaped),
    };
    Vector { falsified: true, answers, ..vector.clone() }
}

/// A record that is none; no chronicle is lent with it.
fn of_a_bad_record(random: &mut Random, vector: &Vector) -> Vector {
    Vector { nations: vec![], entries: vec![], ..bad_record(random, vector) }
}

/// A cell too few for the names, or for the rows where there are none.
fn without_names(random: &mut Random, vector: &Vector) -> Vector {
    match vector.many.len() - 1 {
        0 => without_room(random, vector),
        names => {
            let mut vector = Vector { answers: Err(Refusal::NoRoom(None)), ..vector.clone() };
            vector.many[0] = random.pick(&[0, count(names - 1)]);
            vector
        }
    }
}

/// Changes, cuts off or adds words until they are no histories'.
fn ill_shaped_histories(random: &mut Random, vector: &Vector) -> Vector {
    let mut vector = Vector { answers: Err(Refusal::NotWellShaped), ..vector.clone() };
    let nations = vector.nations.len() / 5;
    while histories_told(&vector.many, nations).is_some() {
        let any = random.pick(&[0, 1, count(nations) + 1, 0x45_5f_47, u32::MAX]);
        match random.below(4) {
            0 => vector.many.push(any),
            1 => _ = vector.many.pop(),
            _ if vector.many.is_empty() => {}
            _ => {
                let place = random.below(vector.many.len());
                vector.many[place] = any;
            }
        }
    }
    vector
}
