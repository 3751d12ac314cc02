//! Ledgers: of one nation with the number of its rows, and of all nations.

use chronicle::rows::LEDGER_WORDS;
use chronicle::Refusal;
use chronicle_trial::adversary::ledgers;
use chronicle_trial::generate::Random;
use chronicle_trial::pack::{pack, Campaign};
use chronicle_trial::rows::{entry_words, ledger_words, nation_words, tag_word, LedgerRow, Nation};

use super::{bad_record, count, ill_shaped, lent, without_room, Kind, Other, Vector, NOBODY};
use crate::rust::{nation_events, Rust};

const SEED: u64 = 1450;

/// Campaigns whose chronicles are lent, each as it is and altered.
const CAMPAIGNS: usize = 25;

/// Ledgers that have more rows together take too much room in the list.
const MOST_ROWS: usize = 40;

/// Places in a vector about one nation: its number, the refusal of `nation_ledger_rows`, and what it
/// answers.
const NATION: usize = 0;
const REFUSED: usize = 2;
const ROWS: usize = 3;

/// What else is made of a vector about one nation, and of one about all.
const OTHERS: [Other; 5] = [falsified, ill_shaped, bad_record, no_such_nation, without_room];
const OTHERS_OF_ALL: [Other; 5] =
    [falsified_all, ill_shaped, bad_record, without_counts, without_room];

/// The vectors about one nation, and behind them those about all.
pub fn list() -> Vec<Vector> {
    let mut random = Random::new(SEED);
    let [mut one, mut all] = [Vec::new(), Vec::new()];
    for number in 0..CAMPAIGNS {
        for told in with_rows(&mut random) {
            let vector = told.one(&mut random);
            one.push(settled(OTHERS[number % OTHERS.len()](&mut random, &vector)));
            one.push(vector);
            let vector = told.all(&mut random);
            all.push(settled(OTHERS_OF_ALL[number % OTHERS.len()](&mut random, &vector)));
            all.push(vector);
        }
    }
    [one, all].concat()
}

/// Draws until the ledgers of a campaign's own nations and of altered ones have some rows, and not
/// too many.
fn with_rows(random: &mut Random) -> [Told; 2] {
    loop {
        let campaign = ledgers::campaign(random);
        let told = lent(random, &campaign).map(|nations| Told::of(&campaign, nations));
        let rows = |told: &Told| told.ledgers.iter().map(Vec::len).sum();
        if told.iter().all(|told| (1..=MOST_ROWS).contains(&rows(told))) {
            return told;
        }
    }
}

/// A record, and nations with the ledgers that the Rust gives them.
struct Told {
    record: Vec<u8>,
    nations: Vec<Nation>,
    ledgers: Vec<Vec<LedgerRow>>,
}

impl Told {
    fn of(campaign: &Campaign, nations: Vec<Nation>) -> Told {
        let rust = Rust::of(campaign);
        let ledgers = nations.iter().map(|nation| rust.ledger(&nation_events(nation))).collect();
        Told { record: pack(campaign), nations, ledgers }
    }

    /// The ledger of a nation that has rows; their number is counted to the end, or not.
    fn one(&self, random: &mut Random) -> Vector {
        let numbers = 0..self.nations.len();
        let listed: Vec<usize> = numbers.filter(|&n| !self.ledgers[n].is_empty()).collect();
        let nation = random.pick(&listed);
        let rows = self.ledgers[nation].len();
        let most = random.pick(&[0, rows - 1, rows, rows + 1, u32::MAX as usize]);
        let many = [nation, most, 0, rows.min(most)].map(count).to_vec();
        self.vector(random, Kind::Ledger, many, &self.ledgers[nation])
    }

    fn all(&self, random: &mut Random) -> Vector {
        let cells = self.nations.len() + random.below(3);
        let many = [cells].into_iter().chain(self.ledgers.iter().map(Vec::len));
        let many = many.map(count).collect();
        self.vector(random, Kind::Ledgers, many, &self.ledgers.concat())
    }

    fn vector(
        &self,
        random: &mut Random,
        kind: Kind,
        many: Vec<u32>,
        rows: &[LedgerRow],
    ) -> Vector {
        let rows = ledger_words(rows);
        Vector {
            kind,
            falsified: false,
            record: self.record.clone(),
            nations: nation_words(&self.nations),
            entries: entry_words(&self.nations),
            single: vec![],
            many,
            room: rows.len() + random.below(4),
            answers: Ok(rows),
        }
    }
}

/// The number of a nation's rows is refused as the rows are, but not for want of room; and what is
/// refused of all nations has no counts.
fn settled(mut vector: Vector) -> Vector {
    match (vector.kind, &vector.answers) {
        (Kind::Ledger, Err(refusal)) if !vector.falsified && *refusal != Refusal::NoRoom(None) => {
            vector.many[REFUSED] = u32::from(refusal.number());
            vector.many[ROWS] = 0;
        }
        (Kind::Ledgers, Err(_)) => vector.many.truncate(1),
        _ => {}
    }
    vector
}

/// The number of the rows is another one or refused, or the rows are falsified.
fn falsified(random: &mut Random, vector: &Vector) -> Vector {
    let mut vector = Vector { falsified: true, ..vector.clone() };
    match random.below(4) {
        0 => vector.many[ROWS] += 1,
        1 => {
            vector.many[REFUSED] = u32::from(Refusal::NoSuchNation.number());
            vector.many[ROWS] = 0;
        }
        _ => falsify_rows(random, &mut vector),
    }
    vector
}

/// The number of one nation's rows is another one, or the rows are falsified.
fn falsified_all(random: &mut Random, vector: &Vector) -> Vector {
    let mut vector = Vector { falsified: true, ..vector.clone() };
    match random.below(3) {
        0 => *vector.many.last_mut().expect("somebody has rows") += 1,
        _ => falsify_rows(random, &mut vector),
    }
    vector
}

/// A row has another tag, year or value, or is missing, or all are refused.
fn falsify_rows(random: &mut Random, vector: &mut Vector) {
    let rows = vector.answers.as_mut().expect("the Rust refuses nothing");
    let row = LEDGER_WORDS * random.below(rows.len() / LEDGER_WORDS);
    match random.below(5) {
        0 => rows[row] = tag_word(NOBODY),
        1 => rows[row + 1] += 1,
        2 => rows[row + 2] ^= 1 << 31,
        3 => rows.truncate(rows.len() - 3),
        _ => vector.answers = Err(Refusal::NotWellShaped),
    }
}

/// The number is one past the list, or far behind it; that there is no room comes later.
fn no_such_nation(random: &mut Random, vector: &Vector) -> Vector {
    let mut vector = Vector { answers: Err(Refusal::NoSuchNation), ..vector.clone() };
    let past = count(vector.nations.len() / 5);
    vector.many[NATION] = random.pick(&[past, past, past + 1, u32::MAX]);
    vector.room = random.pick(&[0, vector.room]);
    vector
}

/// A cell too few for the numbers of rows, or none at all.
fn without_counts(random: &mut Random, vector: &Vector) -> Vector {
    let mut vector = Vector { answers: Err(Refusal::NoRoom(None)), ..vector.clone() };
    let nations = count(vector.nations.len() / 5);
    vector.many[0] = random.pick(&[0, nations - 1]);
    vector
}
