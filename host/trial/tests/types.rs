//! The types of tags and dates hold exactly what the library takes for tags and dates.

use chronicle::layout;
use chronicle::raw::{self, events_on, Chronicle};
use chronicle::{
    Chronicle as Told, CountryTag, Entry, Eu4Date, LedgerPoint, NotADate, NotARow, NotATag,
    OwnerChange, Record, Refusal, TagData, TagResolverDated,
};
use chronicle_trial::generate::Random;
use chronicle_trial::sample;

/// Whether the library takes the word for a date.
fn is_date(word: u32) -> bool {
    match events_on(sample::WORKED, word, &mut [0; 2]) {
        Ok(()) => true,
        Err(refusal) => {
            assert_eq!(refusal, Refusal::BadQuestion);
            false
        }
    }
}

/// Whether the library takes the word for a tag.
fn is_tag(word: u32) -> bool {
    match (Chronicle { nations: &[], entries: &[] }).initial(word) {
        Ok(found) => found.is_none(),
        Err(refusal) => {
            assert_eq!(refusal, Refusal::BadQuestion);
            false
        }
    }
}

#[test]
fn dates() {
    let mut days = 0;
    for year in [0, 1, 4, 1444, 9999, 10_000, 65_536, 429_496] {
        for rest in 0..10_000 {
            let Some(word) = (year * 10_000_u32).checked_add(rest) else { continue };
            let date = Eu4Date::from_word(word);
            assert_eq!(date.is_some(), is_date(word), "{word}");
            let Some(date) = date else {
                assert_eq!(Eu4Date::try_from(word), Err(NotADate), "{word}");
                continue;
            };
            days += 1;
            assert_eq!(
                (date.word(), u32::from(date), Eu4Date::try_from(word)),
                (word, word, Ok(date))
            );
            assert_eq!(Eu4Date::new(date.year(), date.month(), date.day()), Some(date));
            assert_eq!(date.to_string().parse(), Ok(date));
            assert_eq!(word.to_string().parse(), Ok(date));
        }
    }
    assert_eq!(days, 4 * 365);
}

/// A day's number is one more than that of the day before.
#[test]
fn days_are_counted_without_gap() {
    let dates = (1..=3).flat_map(|year| (0..10_000).map(move |rest| year * 10_000 + rest));
    let days = dates.filter_map(Eu4Date::from_word).map(Eu4Date::days);
    assert!(days.eq(0..3 * 365));
}

#[test]
fn tags() {
    let mut random = Random::new(91);
    let near = (0..3).flat_map(|place| (0..256).map(move |byte| (place, byte)));
    let near = near.map(|(place, byte)| 0x45_4e_47 & !(0xff << (8 * place)) | byte << (8 * place));
    let any: Vec<u32> = (0..20_000).map(|_| random.next() as u32).collect();
    let small: Vec<u32> = any.iter().map(|word| word & 0x7f_7f_7f).collect();
    let mut found = [0; 2];
    for word in near.chain(any).chain(small).chain([0, u32::MAX, 0x01_45_4e_47]) {
        let tag = CountryTag::from_word(word);
        assert_eq!(tag.is_some(), is_tag(word), "{word:#x}");
        found[usize::from(tag.is_some())] += 1;
        let Some(tag) = tag else {
            assert_eq!(CountryTag::try_from(word), Err(NotATag), "{word:#x}");
            continue;
        };
        assert_eq!((tag.word(), CountryTag::create(tag.bytes())), (word, Ok(tag)));
        assert_eq!((CountryTag::try_from(word), u32::from(tag)), (Ok(tag), word));
        assert_eq!(tag.to_string().parse(), Ok(tag));
    }
    assert!(found.iter().all(|&times| times > 500), "{found:?}");
}

#[test]
fn texts_that_are_no_date_and_no_tag() {
    for text in ["", "1444", "1444-11", "1444-11-11-11", "+1444-11-11", "014441111", "1444-1a-11"] {
        assert_eq!(text.parse::<Eu4Date>(), Err(NotADate), "{text}");
    }
    for text in ["", "EN", "ENGL", "E G", "É1", "en\n"] {
        assert_eq!(text.parse::<CountryTag>(), Err(NotATag), "{text}");
    }
    assert_eq!("1444-1-1".parse::<Eu4Date>().map(Eu4Date::word), Ok(14440101));
}

/// A tag that is none is not told with advice on leap days, nor a date with advice on letters.
#[test]
fn a_tag_and_a_date_have_errors_of_their_own() {
    let told = |error: &dyn std::error::Error| error.to_string();
    let [tag, date] = [told(&NotATag), told(&NotADate)];
    assert!(tag.contains("letters") && !tag.contains("day") && !tag.contains("February"), "{tag}");
    assert!(date.contains("29 February") && !date.contains("letters"), "{date}");
    let refused = Refusal::BadQuestion;
    assert_eq!([Refusal::from(NotATag), Refusal::from(NotADate)], [refused, refused]);
}

#[test]
fn tags_and_dates_are_padded_as_texts_are() {
    let (tag, date) = (CountryTag::new(*b"ENG"), Eu4Date::new(1444, 11, 11).expect("a day"));
    assert_eq!(format!("{tag:>5}|{tag:<5}|{tag:-^7}"), "  ENG|ENG  |--ENG--");
    assert_eq!(format!("{date:>12}|{date:<12}"), "  1444-11-11|1444-11-11  ");
}

#[test]
fn a_tag_is_compared_with_texts_from_either_side() {
    let tag = CountryTag::new(*b"ENG");
    let text: &str = tag.as_ref();
    let equal = [tag == "ENG", tag == *"ENG", "ENG" == tag, *"ENG" == tag, text == tag];
    assert_eq!(equal, [true; 5]);
    let others = ["eng", "ENGL", ""].map(|other| [tag == other, other == tag]);
    assert_eq!(others, [[false; 2]; 3]);
    let bytes: &[u8] = tag.as_ref();
    assert_eq!((CountryTag::try_from(bytes), CountryTag::try_from(text)), (Ok(tag), Ok(tag)));
}

/// Rows go to words and back as the library writes them; what it never writes is no row.
#[test]
fn rows_are_the_words_that_the_library_writes() {
    let record = Record::open(sample::ISLES).expect("it is accepted");
    let chronicle = record.chronicle().expect("there is a thread");
    let words: Vec<u32> = chronicle.entries().flat_map(<[u32; 3]>::from).collect();
    assert_eq!(words, chronicle.rows().entries);
    for (row, entry) in chronicle.rows().entries.as_chunks().0.iter().zip(chronicle.entries()) {
        assert_eq!(Entry::try_from(*row), Ok(entry));
    }
    for change in chronicle.owner_changes() {
        assert_eq!(OwnerChange::try_from(<[u32; 4]>::from(change)), Ok(change));
    }
    for point in chronicle.nation_ledgers().expect("there is room").into_iter().flatten() {
        assert_eq!(LedgerPoint::try_from(<[u32; 3]>::from(point)), Ok(point));
    }
    assert_eq!(Entry::try_from([14441111, 1, 1]), Err(NotARow));
    assert_eq!(Entry::try_from([14440229, 1, 0]), Err(NotARow));
    assert_eq!(OwnerChange::try_from([14441111, 65_536, 2960685, 2960685]), Err(NotARow));
    assert_eq!(TagData::try_from([2960685, 0]), Err(NotARow));
}

/// What a host can put into a map, a set or a sorted list, and send to a thread.
#[test]
fn rows_are_hashed_ordered_and_sent() {
    fn whole<T: Clone + Ord + std::hash::Hash + Send + Sync + std::fmt::Debug + 'static>() {}
    whole::<(CountryTag, Eu4Date, Entry, OwnerChange, TagData, LedgerPoint)>();
    whole::<(chronicle::Nation, chronicle::Player, chronicle::PlayerHistory)>();
    whole::<(chronicle::WarParticipant, chronicle::Side, chronicle::LedgerKind)>();
    whole::<(NotATag, NotADate, NotARow, chronicle::NotALedger, Refusal)>();
    fn kept<T: Clone + Eq + std::hash::Hash + Send + Sync + std::fmt::Debug + 'static>() {}
    kept::<(Record<'static>, Told<'static>, TagResolverDated<'static>)>();
    kept::<(raw::Chronicle<'static>, raw::Question, raw::HistoryCounts)>();
    kept::<(layout::Counts, layout::Enough, layout::Sections)>();
}

/// A host's own value: the chronicle beside its record, made by a function that returns both.
#[test]
fn a_chronicle_is_kept_beside_its_record() {
    struct Campaign {
        record: Record<'static>,
        chronicle: Told<'static>,
    }
    fn opened(bytes: &[u8]) -> Result<Campaign, Refusal> {
        let record = Record::open(bytes)?.into_owned();
        Ok(Campaign { chronicle: record.chronicle()?, record })
    }
    let campaign = opened(sample::ISLES).expect("it is accepted");
    let Campaign { record, chronicle } = campaign;
    let shared = std::ptr::eq(record.bytes(), chronicle.record().bytes());
    assert!(shared, "the bytes are not copied");
    drop(record);
    let told = std::thread::spawn(move || {
        chronicle.resolve(CountryTag::new(*b"TYR"), Eu4Date::new(1460, 2, 28)?).ok()?
    });
    assert_eq!(
        told.join().expect("it ends").map(|found| found.current),
        Some(CountryTag::new(*b"IRE"))
    );
}
