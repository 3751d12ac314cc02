//! Players, their histories and the starting country.

use chronicle::raw::{check, Chronicle};
use chronicle::Refusal;
use chronicle_trial::adversary::{draw_bare, players::play};
use chronicle_trial::generate::Random;
use chronicle_trial::lists::{altered_histories, any_nations};
use chronicle_trial::model::{self, histories_told, nations_told};
use chronicle_trial::pack::{pack, Campaign};
use chronicle_trial::rows::{entry_words, history_words, nation_words, player_words, tag_word};
use chronicle_trial::trial::{begun, played};

use super::words::{alter, lent, nearly, word, words, Outcomes, DATES, TAGS};

/// A campaign of a few players and its record; of some a byte is missing.
fn record(random: &mut Random) -> (Campaign, Vec<u8>) {
    let mut campaign = draw_bare(random);
    play(random, &mut campaign);
    let mut record = pack(&campaign);
    record.truncate(record.len() - usize::from(random.below(8) == 0));
    (campaign, record)
}

#[test]
fn any_players() {
    let mut random = Random::new(21);
    let mut outcomes = Outcomes::new();
    for _ in 0..20_000 {
        let (campaign, record) = record(&mut random);
        let expected = check(&record).map(|()| player_words(&model::players(&campaign)));
        let length = random.below(6);
        let expected = lent(&expected, length, &mut outcomes);
        let outcome = played(&record, length, expected.as_deref().map_err(|&refusal| refusal));
        assert_eq!(outcome, Ok(()), "{campaign:?}");
    }
    let numbers: Vec<u8> = outcomes.keys().copied().collect();
    assert_eq!(numbers, [0, 1, 3, 10], "{outcomes:?}");
    assert!(outcomes.values().all(|&times| times > 1_000), "{outcomes:?}");
}

/// Holds the starting country by any three lists of words against the model's.
fn started(random: &mut Random, [histories, nations, entries]: [&[u32]; 3], seen: &mut Outcomes) {
    let expected = nations_told(nations, entries).and_then(|nations| {
        let told = histories_told(histories, nations.len())?;
        Some(model::starting_country(&told, &nations))
    });
    let expected = expected.ok_or(Refusal::NotWellShaped);
    let words = expected.map(|start| start.map(tag_word).into_iter().collect());
    let length = random.below(3);
    let outcome = lent(&words, length, seen).and(expected);
    let rows = Chronicle { nations, entries };
    assert_eq!(begun(rows, histories, length, outcome), Ok(()), "{histories:?} {rows:?}");
}

#[test]
fn any_words_for_the_starting_country() {
    let mut random = Random::new(22);
    let mut outcomes = Outcomes::new();
    for _ in 0..20_000 {
        let lists = [0; 3].map(|_| words(&mut random, 40));
        started(&mut random, lists.each_ref().map(|list| &list[..]), &mut outcomes);
    }
    assert!(outcomes[&11] > 10_000, "{outcomes:?}");
}

/// The words of histories and of a chronicle, two times out of three with something altered.
fn nearly_histories(random: &mut Random) -> [Vec<u32>; 3] {
    let list = any_nations(random, &TAGS, &DATES);
    let told = altered_histories(random, &[], list.len(), &TAGS);
    let mut lists = [history_words(&told), nation_words(&list), entry_words(&list)];
    let which = random.below(5);
    if let Some(list) = lists.get_mut(which) {
        alter(random, list, [7, 5, 3][which]);
    }
    for row in lists[0].as_chunks_mut::<7>().0 {
        row[4] = word(random);
    }
    lists
}

#[test]
fn nearly_histories_for_the_starting_country() {
    let mut random = Random::new(23);
    let mut outcomes = Outcomes::new();
    for _ in 0..50_000 {
        let lists = nearly_histories(&mut random);
        started(&mut random, lists.each_ref().map(|list| &list[..]), &mut outcomes);
    }
    let numbers: Vec<u8> = outcomes.keys().copied().collect();
    assert_eq!(numbers, [0, 1, 10, 11], "{outcomes:?}");
    assert!(outcomes.values().all(|&times| times > 1_000), "{outcomes:?}");
}

mod histories {
    use chronicle_trial::rows::name_words;
    use chronicle_trial::trial::recalled;

    use super::*;

    fn recorded(random: &mut Random, rows: Chronicle<'_>, outcomes: &mut Outcomes) {
        let (campaign, record) = record(random);
        let told = || nations_told(rows.nations, rows.entries).ok_or(Refusal::NotWellShaped);
        let answer = |nations: Vec<_>| model::histories(&campaign, &nations);
        let expected = check(&record).and_then(|()| told()).map(answer);
        let expected = expected.map(|told| [history_words(&told), name_words(&told)]);
        let lengths = [random.below(36), random.below(6)];
        let fits = |words: &[Vec<u32>; 2]| words.iter().zip(lengths).all(|(w, l)| w.len() <= l);
        let expected =
            expected.and_then(
                |words| if fits(&words) { Ok(words) } else { Err(Refusal::NoRoom(None)) },
            );
        let rest = expected.clone().map(|words| words.concat());
        _ = lent(&rest, usize::MAX, outcomes);
        let expected = expected.as_ref().map(|words| words.each_ref().map(|words| &words[..]));
        let outcome = recalled(rows, &record, lengths, expected.map_err(|&refusal| refusal));
        assert_eq!(outcome, Ok(()), "{rows:?} {campaign:?}");
    }

    #[test]
    fn any_words_for_histories() {
        let mut random = Random::new(24);
        let mut outcomes = Outcomes::new();
        for _ in 0..20_000 {
            let [nations, entries] = [0; 2].map(|_| words(&mut random, 40));
            recorded(
                &mut random,
                Chronicle { nations: &nations, entries: &entries },
                &mut outcomes,
            );
        }
        assert!(outcomes[&11] > 10_000 && outcomes[&3] > 1_000, "{outcomes:?}");
    }

    #[test]
    fn nearly_a_chronicle_for_histories() {
        let mut random = Random::new(25);
        let mut outcomes = Outcomes::new();
        for _ in 0..50_000 {
            let [nations, entries] = nearly(&mut random);
            recorded(
                &mut random,
                Chronicle { nations: &nations, entries: &entries },
                &mut outcomes,
            );
        }
        let numbers: Vec<u8> = outcomes.keys().copied().collect();
        assert_eq!(numbers, [0, 1, 3, 10, 11], "{outcomes:?}");
        assert!(outcomes.values().all(|&times| times > 1_000), "{outcomes:?}");
    }
}
