//! The interface of values against the model: every answer, as the model gives it.

use std::thread;

use chronicle::{
    Chronicle, CountryTag, EntryKind, Eu4Date, Lacking, Name, Record, Refusal, Shortage, Side,
    TagData,
};
use chronicle_trial::adversary::{days_of, tags_of};
use chronicle_trial::cases::Cases;
use chronicle_trial::extremes::{self, pages};
use chronicle_trial::generate::{at_limits, Random};
use chronicle_trial::lists::some_of;
use chronicle_trial::pack::{self, pack, Campaign, Tag};
use chronicle_trial::reference::inspect;
use chronicle_trial::rows::{
    Booking, Change, Entry, History, Kind, LedgerRow, Nation, Player, Resolved, Run,
};
use chronicle_trial::{adversary, model, sample, wars};

fn tag(bytes: Tag) -> CountryTag {
    CountryTag::create(bytes).expect("the model has tags")
}

fn date(word: pack::Date) -> Eu4Date {
    Eu4Date::from_word(word).expect("the model has days")
}

fn nation(told: chronicle::Nation) -> Nation {
    let entry = |entry: &chronicle::Entry| Entry {
        date: entry.date.word(),
        kind: match entry.kind {
            EntryKind::TagSwitch(target) => Kind::Switch(target.bytes()),
            EntryKind::Appeared => Kind::Appeared,
            EntryKind::Annexed => Kind::Annexed,
        },
    };
    Nation {
        initial: told.initial.bytes(),
        latest: told.latest.bytes(),
        stored: told.stored.bytes(),
        entries: told.entries.iter().map(entry).collect(),
    }
}

fn resolved(told: Option<TagData>) -> Option<Resolved> {
    told.map(|found| Resolved { current: found.current.bytes(), stored: found.stored.bytes() })
}

fn ledger(told: Vec<chronicle::LedgerPoint>) -> Vec<LedgerRow> {
    let row = |point: chronicle::LedgerPoint| LedgerRow {
        tag: point.tag.bytes(),
        year: point.year,
        value: point.value,
    };
    told.into_iter().map(row).collect()
}

fn change(told: chronicle::OwnerChange) -> Change {
    let [from, to] = [told.from, told.to].map(CountryTag::bytes);
    Change { date: told.date.word(), id: told.province.0, from, to }
}

/// Asks everything about a campaign, of at most so many tags and days.
fn agree(campaign: &Campaign, random: &mut Random, most: usize) -> Result<(), Refusal> {
    let bytes = pack(campaign);
    let record = Record::open(&bytes)?;
    let chronicle = record.chronicle()?;
    let expected = model::chronicle(campaign);
    let days = days_of(random, campaign);
    let days = some_of(random, days, most);
    let tags = some_of(random, tags_of(campaign), most);

    of_record(&record, campaign, &expected)?;
    for &day in &days {
        let found = record.events_on(date(day))?;
        let run = Run { first: found.start, count: found.len() };
        assert_eq!(run, model::events_on(&expected.changes, day));
    }
    of_chronicle(&chronicle, campaign, &expected)?;
    of_resolver(&chronicle, &expected.nations, &tags, &days)?;
    let lines: Vec<u8> = tags.iter().flat_map(|tag| [tag, &b"\n"[..]].concat()).collect();
    let selection: Vec<CountryTag> = tags.iter().copied().map(tag).collect();
    let page = record.page(&selection).map(String::into_bytes);
    assert_eq!(page.map_err(Refusal::number), model::page(&bytes, &lines).map_err(Refusal::number));
    Ok(())
}

fn of_record(
    record: &Record<'_>,
    campaign: &Campaign,
    expected: &model::Chronicle,
) -> Result<(), Refusal> {
    let dates = [record.start_date(), record.current_date()].map(Eu4Date::word);
    assert_eq!(dates, [campaign.start, campaign.current]);
    let flags = u8::from(record.is_ironman()) | u8::from(record.is_multiplayer()) << 1;
    assert_eq!(flags, campaign.flags);
    let changes: Vec<Change> = record.province_owners()?.into_iter().map(change).collect();
    assert_eq!(changes, expected.changes);
    let players = record.players()?.into_iter().map(|player| {
        assert_eq!(player.name.bytes, campaign.strings[player.name.number]);
        Player { name: player.name.number, tag: player.tag.bytes() }
    });
    assert_eq!(players.collect::<Vec<_>>(), model::players(campaign));
    Ok(())
}

fn of_chronicle(
    chronicle: &Chronicle<'_>,
    campaign: &Campaign,
    expected: &model::Chronicle,
) -> Result<(), Refusal> {
    let nations: Vec<Nation> = chronicle.nations().map(nation).collect();
    assert_eq!(nations, expected.nations);
    assert_eq!(chronicle.entries().len(), nations.iter().map(|n| n.entries.len()).sum::<usize>());
    assert!(chronicle.owner_changes().map(change).eq(expected.changes.iter().copied()));
    let holders = chronicle.holders().map(|(_, holder)| holder.map(CountryTag::bytes));
    assert_eq!(holders.collect::<Vec<_>>(), expected.holders);
    let held: Vec<(Tag, usize)> = chronicle.held().map(|(tag, held)| (tag.bytes(), held)).collect();
    let own = campaign.countries.iter().map(|country| country.tag);
    assert_eq!(held, own.zip(expected.held.iter().copied()).collect::<Vec<_>>());

    let booked = chronicle.war_participants()?.into_iter().map(|entered| Booking {
        war: entered.war,
        tag: entered.tag.bytes(),
        stored: entered.stored.bytes(),
    });
    assert_eq!(booked.collect::<Vec<_>>(), model::bookings(campaign, &nations));
    entered_wars(chronicle, campaign)?;
    let ledgers: Vec<Vec<LedgerRow>> =
        nations.iter().map(|nation| model::ledger(campaign, nation)).collect();
    for (number, rows) in ledgers.iter().enumerate() {
        assert_eq!(ledger(chronicle.nation_ledger(number)?), *rows);
    }
    assert_eq!(chronicle.nation_ledgers()?.into_iter().map(ledger).collect::<Vec<_>>(), ledgers);
    assert_eq!(chronicle.nation_ledger(nations.len()), Err(Refusal::NoSuchNation));
    played(chronicle, campaign, &nations)
}

/// When and on which side, as the campaign has it.
fn entered_wars(chronicle: &Chronicle<'_>, campaign: &Campaign) -> Result<(), Refusal> {
    let told =
        chronicle.war_participants()?.into_iter().map(|e| (e.date.word(), e.side, e.tag.bytes()));
    let events = campaign.wars.iter().flat_map(|war| &war.events);
    let entered = events.filter_map(|event| {
        let side = [Side::Attacker, Side::Defender].get(usize::from(event.kind)).copied()?;
        Some((event.date, side, event.tag))
    });
    assert!(told.eq(entered));
    Ok(())
}

fn played(
    chronicle: &Chronicle<'_>,
    campaign: &Campaign,
    nations: &[Nation],
) -> Result<(), Refusal> {
    let own = |name: &Name| {
        assert_eq!(name.bytes, campaign.strings[name.number]);
        name.number
    };
    let told = chronicle.player_histories()?.into_iter().map(|history| History {
        initial: history.initial.bytes(),
        latest: history.latest.bytes(),
        stored: history.stored.bytes(),
        nation: history.nation,
        human: history.is_human,
        names: history.player_names.iter().map(own).collect(),
    });
    let histories = model::histories(campaign, nations);
    assert_eq!(told.collect::<Vec<_>>(), histories);
    let start = chronicle.starting_country()?.map(CountryTag::bytes);
    assert_eq!(start, model::starting_country(&histories, nations));
    Ok(())
}

fn of_resolver(
    chronicle: &Chronicle<'_>,
    nations: &[Nation],
    tags: &[Tag],
    days: &[pack::Date],
) -> Result<(), Refusal> {
    let mut questions = Vec::new();
    for &asked in tags {
        let found = chronicle.initial(tag(asked))?;
        assert_eq!(resolved(found), model::initial(nations, asked));
        for &day in days {
            let at = chronicle.at(date(day));
            let found = at.initial(tag(asked))?;
            assert_eq!(resolved(found), model::initial_at(nations, day, asked));
            let found = chronicle.resolve(tag(asked), date(day))?;
            assert_eq!(resolved(found), model::resolve(nations, asked, day));
            let found = at.resolve(tag(asked), date(days[0]))?;
            assert_eq!(resolved(found), model::resolve_at(nations, day, asked, days[0]));
            questions.push((tag(asked), date(day)));
        }
    }
    let found = chronicle.resolve_each(&questions)?.into_iter().map(resolved);
    let expected =
        questions.iter().map(|(tag, day)| model::resolve(nations, tag.bytes(), day.word()));
    assert!(found.eq(expected));
    Ok(())
}

#[test]
fn samples() {
    let mut random = Random::new(1);
    assert_eq!(agree(&sample::worked(), &mut random, usize::MAX), Ok(()));
    assert_eq!(agree(&sample::isles(), &mut random, usize::MAX), Ok(()));
}

#[test]
fn small_campaigns() {
    let mut random = Random::new(61);
    for round in 0..400 {
        let mut campaign = wars::campaign(&mut random);
        match round % 3 {
            0 => campaign = adversary::players::campaign(&mut random),
            1 => campaign = adversary::ledgers::campaign(&mut random),
            _ => {}
        }
        assert_eq!(agree(&campaign, &mut random, 6), Ok(()), "round {round}");
    }
}

/// Every call from a thread with so little stack that the deep ones would not have enough.
#[test]
fn from_a_thread_of_64_kib() {
    let bytes = pack(&at_limits());
    let calls = move || {
        let record = Record::open(&bytes)?;
        let chronicle = record.chronicle()?;
        assert_eq!(record.province_owners()?.len(), chronicle.owner_changes().len());
        record.events_on(record.start_date())?;
        record.players()?;
        chronicle.war_participants()?;
        chronicle.nation_ledger(0)?;
        chronicle.player_histories()?;
        chronicle.starting_country()?;
        let questions: Vec<(CountryTag, Eu4Date)> =
            chronicle.nations().map(|nation| (nation.initial, record.start_date())).collect();
        let found = chronicle.resolve_each(&questions)?;
        assert_eq!(found[0], chronicle.resolve(questions[0].0, questions[0].1)?);
        record.page(&[]).or(Ok::<_, Refusal>(String::new()))
    };
    let thread = thread::Builder::new().stack_size(64 << 10).spawn(calls).expect("it starts");
    assert_eq!(thread.join().expect("there is stack"), Ok(String::new()));
}

/// Damaged records: refused as the independent checker refuses them, and no answer panics.
#[test]
fn any_bytes() {
    let mut cases = Cases::new(62);
    for _ in 0..3_000 {
        let case = cases.draw();
        let opened = Record::open(&case.record);
        assert_eq!(opened.as_ref().err().copied(), inspect(&case.record).err(), "{case}");
        let Ok(record) = opened else { continue };
        let chronicle = record.chronicle().expect("there is room");
        assert!(chronicle.player_histories().is_ok() && chronicle.war_participants().is_ok());
        assert_eq!(chronicle.nation_ledgers().map(|all| all.len()), Ok(chronicle.nations().len()));
        assert!(record.players().is_ok() && record.page(&[CountryTag::NONE]).is_ok());
    }
}

fn shortage(lacking: Lacking, room: usize, needed: usize) -> Result<String, Refusal> {
    Err(Refusal::NoRoom(Some(Shortage { lacking, room, needed })))
}

#[test]
fn a_page_says_what_it_does_not_hold() {
    let page = |campaign: &Campaign, tags: usize| {
        Record::open(pack(campaign))?.page(&vec![CountryTag::NONE; tags])
    };
    let large = at_limits();
    assert_eq!(page(&large, 0), shortage(Lacking::PageRecord, 65_536, pack(&large).len()));
    let tags = shortage(Lacking::PageSelection, 65_536, 65_540);
    assert_eq!(page(&sample::worked(), 16_385), tags);
    assert!(page(&sample::worked(), 16_384).is_ok());
    let changes = shortage(Lacking::PageChanges, 4_000, 4_001);
    assert_eq!(page(&pages::one_slot(4_001), 0), changes);
    let entries = shortage(Lacking::PageEntries, 5_000, 5_001);
    assert_eq!(page(&pages::switched(pages::one_slot(1), 4_999), 0), entries);
}

#[test]
fn ledgers_longer_than_what_is_held() {
    let (campaign, _) = extremes::overlong();
    let mut campaign = Campaign { countries: vec![pack::Country::default()], ..campaign };
    campaign.countries[0].tag = campaign.ledger[0].tag;
    campaign.provinces = vec![pack::Province { id: 1, owner: *b"ENG", events: vec![] }];
    let record = Record::open(pack(&campaign)).expect("it is accepted");
    let chronicle = record.chronicle().expect("there is room");
    let Err(Refusal::NoRoom(Some(short))) = chronicle.nation_ledger(0) else {
        panic!("there are more")
    };
    assert_eq!(short.room, Chronicle::MOST_LEDGER_ROWS);
    assert!(short.needed > 300_000_000, "{short}");
    assert!(matches!(chronicle.nation_ledgers(), Err(Refusal::NoRoom(Some(_)))));
}
