//! War bookings.

use chronicle::rows::BOOKING_WORDS;
use chronicle::Refusal;
use chronicle_trial::generate::Random;
use chronicle_trial::pack::{pack, Campaign};
use chronicle_trial::rows::{booking_words, entry_words, nation_words, tag_word, Nation};

use super::{bad_record, ill_shaped, without_room, Kind, Other, Vector, NOBODY};
use crate::rust::{nation_events, Rust};

/// What else is made of a vector.
pub const OTHERS: [Other; 4] = [falsified, ill_shaped, bad_record, without_room];

/// What the Rust books of a campaign with these nations.
pub fn booked(random: &mut Random, campaign: &Campaign, nations: &[Nation]) -> Vector {
    let theirs: Vec<_> = nations.iter().map(nation_events).collect();
    let bookings = Rust::of(campaign).bookings(&theirs);
    let rows = booking_words(&bookings);
    Vector {
        kind: Kind::Bookings,
        falsified: false,
        record: pack(campaign),
        nations: nation_words(nations),
        entries: entry_words(nations),
        single: vec![],
        many: vec![],
        room: rows.len() + random.below(4),
        answers: Ok(rows),
    }
}

/// A row has another stored tag or another war, or is missing, or all are refused.
fn falsified(random: &mut Random, vector: &Vector) -> Vector {
    let mut vector = Vector { falsified: true, ..vector.clone() };
    let rows = vector.answers.as_mut().expect("the Rust refuses nothing");
    let row = BOOKING_WORDS * random.below(rows.len() / BOOKING_WORDS);
    match random.below(4) {
        0 => rows[row + 2] = tag_word(NOBODY),
        1 => rows[row] += 1,
        2 => rows.truncate(rows.len() - 3),
        _ => vector.answers = Err(Refusal::NotWellShaped),
    }
    vector
}
