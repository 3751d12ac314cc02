//! Words to lend, of any sort or nearly those of a chronicle.

use std::collections::BTreeMap;

use chronicle::Refusal;
use chronicle_trial::generate::Random;
use chronicle_trial::lists::any_nations;
use chronicle_trial::pack::{Date, Tag};
use chronicle_trial::rows::{entry_words, nation_words, tag_word};

pub const TAGS: [Tag; 4] = [*b"ENG", *b"GBR", *b"---", *b"zz9"];
pub const DATES: [Date; 5] = [10101, 14440228, 14440301, 14441231, 99991231];

/// No tags, no dates, and numbers that a sum may run over with.
const NEITHER: [u32; 6] = [0x01_45_4e_47, 0x45_4e_5f, 14440229, 1 << 31, !0 - 1, !0];

/// Any word, more often one that could stand in a row.
pub fn word(random: &mut Random) -> u32 {
    match random.below(8) {
        0 => random.next() as u32,
        1 => random.pick(&NEITHER),
        2 | 3 => random.below(6) as u32,
        4 | 5 => random.pick(&DATES),
        _ => tag_word(random.pick(&TAGS)),
    }
}

/// Fewer than so many words.
pub fn words(random: &mut Random, most: usize) -> Vec<u32> {
    let length = random.below(most);
    (0..length).map(|_| word(random)).collect()
}

/// 0 where nothing is written, 1 where something is, or the refusal's number.
pub type Outcomes = BTreeMap<u8, usize>;

/// Answers that find no room are refused, and nothing else by 10.
pub fn lent(
    expected: &Result<Vec<u32>, Refusal>,
    length: usize,
    outcomes: &mut Outcomes,
) -> Result<Vec<u32>, Refusal> {
    let outcome = match expected {
        Ok(words) if words.len() > length => Err(Refusal::NoRoom(None)),
        other => other.clone(),
    };
    let number =
        outcome.as_ref().map_or_else(|refusal| refusal.number(), |w| (!w.is_empty()).into());
    *outcomes.entry(number).or_insert(0) += 1;
    outcome
}

/// One word another, one more or one less; or a row less, or two rows exchanged.
pub fn alter(random: &mut Random, words: &mut Vec<u32>, width: usize) {
    let rows = words.len() / width;
    match random.below(6) {
        0 => words.push(word(random)),
        1 => drop(words.pop()),
        2 if rows > 0 => drop(words.drain(..width)),
        3 if rows > 0 => {
            let [one, other] = [random.below(rows), random.below(rows)];
            (0..width).for_each(|at| words.swap(one * width + at, other * width + at));
        }
        _ if rows > 0 => {
            let place = random.below(words.len());
            words[place] = word(random);
        }
        _ => {}
    }
}

/// The words of a list, two times out of three with something altered.
pub fn nearly(random: &mut Random) -> [Vec<u32>; 2] {
    let list = any_nations(random, &TAGS, &DATES);
    let [mut nations, mut entries] = [nation_words(&list), entry_words(&list)];
    match random.below(3) {
        0 => alter(random, &mut nations, 5),
        1 => alter(random, &mut entries, 3),
        _ => {}
    }
    [nations, entries]
}
