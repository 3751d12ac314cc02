//! The stored sample of what is answered of lent chronicles, which the proved program replays
//! without Rust at hand: the resolver's answers, war bookings, ledgers, players, histories and
//! starting countries, as the Rust gives them. [`chronicle_trial::stored`] has the form.
//!
//! What is refused is refused by the rules alone: the Rust has no say in it.

mod bookings;
mod ledgers;
mod players;
mod resolver;

use chronicle::Refusal;
use chronicle_trial::adversary::{draw, tags_of};
use chronicle_trial::generate::Random;
use chronicle_trial::lists::altered;
use chronicle_trial::model::nations_told;
use chronicle_trial::pack::{Campaign, Tag};
use chronicle_trial::rows::Nation;
use chronicle_trial::stored::{bytes, Kind, Vector};
use chronicle_trial::unpack::unpack;

use crate::rust::Rust;
use crate::vectors;

const SEED: u64 = 1448;

/// Campaigns whose chronicles are lent to the resolver, and to bookings; each as it is and altered.
const ASKED: usize = 120;
const BOOKED: usize = 60;

/// Of so many campaigns one's are stored with a falsified answer as well, and one's for each way to
/// be refused.
const EVERY: usize = 8;

/// The tag of no campaign that is drawn.
const NOBODY: Tag = *b"0zZ";

/// Makes another vector of one.
type Other = fn(&mut Random, &Vector) -> Vector;

/// The list, the same every time.
///
/// ```
/// use chronicle_oracle::lent_vectors::list;
/// use chronicle_trial::stored::Kind;
///
/// for kind in [Kind::Resolver, Kind::Bookings, Kind::Ledger, Kind::Ledgers, Kind::Histories] {
///     let vectors: Vec<_> = list().into_iter().filter(|vector| vector.kind == kind).collect();
///     let refused = |number: u8| {
///         vectors.iter().any(|v| v.answers.as_ref().is_err_and(|r| r.number() == number))
///     };
///     assert!([10, 11].into_iter().all(refused));
///     assert!(vectors.iter().any(|vector| vector.falsified));
/// }
/// ```
pub fn list() -> Vec<Vector> {
    let mut random = Random::new(SEED);
    let mut list = Vec::new();
    for (number, (campaign, _)) in vectors::list().into_iter().take(ASKED).enumerate() {
        for nations in lent(&mut random, &campaign) {
            let vector = resolver::asked(&mut random, &campaign, &nations);
            let other = resolver::OTHERS.get(number % EVERY);
            list.extend(other.map(|other| other(&mut random, &vector)));
            list.push(vector);
        }
    }
    for number in 0..BOOKED {
        let campaign = at_war(&mut random);
        for nations in lent(&mut random, &campaign) {
            let vector = bookings::booked(&mut random, &campaign, &nations);
            let other = bookings::OTHERS.get(number % EVERY);
            list.extend(other.map(|other| other(&mut random, &vector)));
            list.push(vector);
        }
    }
    list.extend(ledgers::list());
    list.extend(players::list());
    list
}

/// The file.
///
/// ```
/// use chronicle_oracle::lent_vectors::file;
///
/// assert!(file().len() < 700_000);
/// ```
pub fn file() -> Vec<u8> {
    bytes(&list())
}

/// A campaign's own nations, and these told anew.
fn lent(random: &mut Random, campaign: &Campaign) -> [Vec<Nation>; 2] {
    let rust = Rust::of(campaign);
    let nations = rust.nations(&rust.owners());
    let altered = altered(random, &nations, &tags_of(campaign));
    [nations, altered]
}

/// Draws until somebody enters a war.
fn at_war(random: &mut Random) -> Campaign {
    loop {
        let campaign = draw(random);
        let mut events = campaign.wars.iter().flat_map(|war| &war.events);
        if events.any(|event| event.kind < 2) {
            return campaign;
        }
    }
}

/// Changes, cuts off or adds words until they are no chronicle's.
fn spoil(random: &mut Random, nations: &mut Vec<u32>, entries: &mut Vec<u32>) {
    while nations_told(nations, entries).is_some() {
        let words = match random.below(2) {
            0 => &mut *nations,
            _ => &mut *entries,
        };
        let any = random.pick(&[0, 1, 3, 14440229, 0x45_4e_47, u32::MAX]);
        match random.below(4) {
            0 => words.push(any),
            1 => _ = words.pop(),
            _ if words.is_empty() => {}
            _ => {
                let place = random.below(words.len());
                words[place] = any;
            }
        }
    }
}

/// The words are no chronicle's.
fn ill_shaped(random: &mut Random, vector: &Vector) -> Vector {
    let mut vector = Vector { answers: Err(Refusal::NotWellShaped), ..vector.clone() };
    spoil(random, &mut vector.nations, &mut vector.entries);
    vector
}

/// A byte is changed or cut off until the record is none; its number comes before that of the words,
/// which are none either, or of the room.
fn bad_record(random: &mut Random, vector: &Vector) -> Vector {
    let mut vector = match random.below(3) {
        0 => vector.clone(),
        1 => ill_shaped(random, vector),
        _ => without_room(random, vector),
    };
    loop {
        match unpack(&vector.record) {
            Err(refusal) => return Vector { answers: Err(refusal), ..vector },
            Ok(_) if random.below(3) == 0 => _ = vector.record.pop(),
            Ok(_) => {
                let place = random.below(vector.record.len());
                vector.record[place] = random.byte();
            }
        }
    }
}

/// A cell too few for the answers, or none at all.
fn without_room(random: &mut Random, vector: &Vector) -> Vector {
    let needed = vector.answers.as_ref().map_or(0, Vec::len);
    let room = random.pick(&[0, needed - 1]);
    Vector { room, answers: Err(Refusal::NoRoom(None)), ..vector.clone() }
}

fn count(length: usize) -> u32 {
    u32::try_from(length).expect("a vector is short")
}
