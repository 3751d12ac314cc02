//! The known cases (Rules 12.11) as the Rust answers them, and a short run of the comparison.

#[cfg(not(found))]
#[test]
#[ignore = "NOT COMPARED: the Rust was not found when this was built"]
fn the_rust_is_missing() {
    panic!("nothing was compared");
}

#[cfg(found)]
mod found {
    use chronicle_oracle::compare::compare;
    use chronicle_oracle::rust::{nation_events, Resolver, Rust};
    use chronicle_oracle::seen::{Seen, LEDGER_CASES};
    use chronicle_oracle::vectors;
    use chronicle_trial::adversary::{draw, ledgers, players};
    use chronicle_trial::generate::Random;
    use chronicle_trial::pack::{
        pack, Campaign, Country, Date, LedgerName, OwnerEvent, Point, Province, Tag,
    };
    use chronicle_trial::rows::{Entry, Kind, Nation, Resolved};
    use chronicle_trial::{model, sample, wars};

    fn nations(campaign: &Campaign) -> Vec<Nation> {
        let rust = Rust::of(campaign);
        rust.nations(&rust.owners())
    }

    fn resolver(campaign: &Campaign) -> Resolver {
        Resolver::of(&nations(campaign).iter().map(nation_events).collect::<Vec<_>>())
    }

    fn resolved(current: &Tag, stored: &Tag) -> Option<Resolved> {
        Some(Resolved { current: *current, stored: *stored })
    }

    #[test]
    fn entries_of_gbr() {
        let nations = nations(&sample::worked());
        let gbr = nations.iter().find(|nation| nation.stored == *b"GBR").unwrap();
        let expected = [
            Entry { date: 14460101, kind: Kind::Annexed },
            Entry { date: 14470101, kind: Kind::Appeared },
            Entry { date: 14480601, kind: Kind::Switch(*b"GBR") },
        ];
        assert_eq!(gbr.entries, expected);
    }

    #[test]
    fn resolve_gbr() {
        let resolver = resolver(&sample::worked());
        assert_eq!(resolver.resolve(*b"GBR", 14480531), None);
        assert_eq!(resolver.resolve(*b"GBR", 14480601), resolved(b"GBR", b"GBR"));
    }

    #[test]
    fn resolver_set_to_a_day() {
        let resolver = resolver(&sample::worked());
        let eng = resolved(b"ENG", b"GBR");
        assert_eq!(resolver.resolve_at(14480531, *b"ENG", 14480531), eng);
        assert_eq!(resolver.initial_at(14480531, *b"ENG"), None);
    }

    #[test]
    fn ledger_of_gbr() {
        let points = |rows: &[(u16, i32)]| -> Vec<Point> {
            rows.iter().map(|&(year, value)| Point { year, value }).collect()
        };
        let mut campaign = sample::worked();
        campaign.ledger = vec![
            LedgerName { tag: *b"ENG", points: points(&[(1445, 10), (1447, 12)]) },
            LedgerName { tag: *b"GBR", points: points(&[(1449, 20)]) },
        ];
        let gbr = &nations(&campaign)[0];
        let rows = Rust::of(&campaign).ledger(&nation_events(gbr));
        let found: Vec<_> = rows.iter().map(|row| (row.tag, row.year, row.value)).collect();
        let [eng, gbr] = [*b"ENG", *b"GBR"];
        let first = [(eng, 1445, 10), (eng, 1446, 0), (eng, 1447, 12), (eng, 1448, 0)];
        assert_eq!(found, [&first[..], &[(gbr, 1449, 20), (gbr, 1450, 0)]].concat());
    }

    #[test]
    fn only_slot_passing_from_eng_to_gbr() {
        let mut campaign = sample::worked();
        campaign.provinces.truncate(1);
        campaign.provinces[0].events = vec![OwnerEvent { date: 14470101, tag: *b"GBR" }];
        let entries = &nations(&campaign)[0].entries;
        let on_that_day = [Kind::Annexed, Kind::Appeared];
        assert_eq!(entries[..2], on_that_day.map(|kind| Entry { date: 14470101, kind }));
    }

    fn begins(tag: &Tag, previous: &[Tag], owner: &Tag, events: &[(Date, &Tag)]) -> Campaign {
        let mut campaign = sample::worked();
        campaign.countries.truncate(1);
        campaign.countries[0] =
            Country { tag: *tag, previous_tags: previous.to_vec(), ..Country::default() };
        campaign.provinces.truncate(1);
        let event = |&(date, tag): &(Date, &Tag)| OwnerEvent { date, tag: *tag };
        campaign.provinces[0] =
            Province { id: 1, owner: *owner, events: events.iter().map(event).collect() };
        campaign
    }

    /// The smallest records where the change's `from` would tell something else (Rules 4.6).
    #[test]
    fn old_holder_is_the_running_holder() {
        let entry = |date, kind| Entry { date, kind };
        let mapped = begins(b"AAA", &[*b"BBB"], b"BBB", &[(14450101, b"CCC")]);
        assert_eq!(pack(&mapped).len(), 73);
        assert_eq!(nations(&mapped)[0].entries, [entry(14450101, Kind::Annexed)]);

        let falling = begins(b"AAA", &[], b"AAA", &[(14460101, b"BBB"), (14450101, b"AAA")]);
        assert_eq!(pack(&falling).len(), 77);
        let expected = [
            entry(14450101, Kind::Annexed),
            entry(14450101, Kind::Appeared),
            entry(14460101, Kind::Annexed),
        ];
        assert_eq!(nations(&falling)[0].entries, expected);
        for campaign in [mapped, falling] {
            assert_eq!(compare(&campaign, 1, usize::MAX, &mut Seen::default()), Ok(()));
        }
    }

    /// What small campaigns are drawn for: each is to be met in one of twenty, or oftener.
    const HARD_CASES: [&str; 22] = [
        "campaign: initials shared",
        "campaign: a chain comes back",
        "campaign: switches out of date order",
        "campaign: previous tags without switches",
        "campaign: switches without previous tags",
        "campaign: --- is a country's tag",
        "campaign: --- is an owner",
        "campaign: --- is a target",
        "campaign: --- is a nation",
        "campaign: a change to ---",
        "campaign: a change before the start",
        "campaign: a change on the start",
        "campaign: a change after the start",
        "campaign: annexed and back on one day",
        "campaign: the last slot lost and regained on one day",
        "campaign: a change settles elsewhere than its tag",
        "campaign: a change is too late for a switch from its tag",
        "campaign: the old holder is not whom `from` settles to",
        "campaign: a switch and a life on one day",
        "campaign: two switches on one day",
        "campaign: a later nation has entries",
        "campaign: a holder is no country",
    ];

    fn rare(seen: &Seen) -> Vec<(&'static str, usize)> {
        let few = seen.times("campaign: all") / 20;
        let times = HARD_CASES.map(|what| (what, seen.times(what)));
        times.into_iter().filter(|&(_, times)| times <= few).collect()
    }

    fn noted<'a>(campaigns: impl IntoIterator<Item = &'a Campaign>) -> Seen {
        let mut seen = Seen::default();
        for campaign in campaigns {
            seen.note(campaign, &model::chronicle(campaign));
        }
        seen
    }

    #[test]
    fn hard_cases_are_drawn() {
        let mut random = Random::new(1_000);
        let drawn: Vec<Campaign> = (0..4_000).map(|_| draw(&mut random)).collect();
        assert_eq!(rare(&noted(&drawn)), []);
    }

    #[test]
    fn hard_cases_are_stored() {
        let list = vectors::list();
        assert_eq!(rare(&noted(list.iter().map(|(campaign, _)| campaign))), []);
    }

    /// What wars are drawn for: each is to be met in one of twenty lists, or oftener.
    const WAR_CASES: [&str; 13] = [
        "war: a battle between two that join",
        "war: a removal between two that join",
        "war: a tag joins twice",
        "war: booked under another tag",
        "war: joins after two switches to the tag",
        "war: joins as ---",
        "war: joins before the start",
        "war: joins on the day of a switch to the tag",
        "war: joins the day before a switch to the tag",
        "war: joins under a tag of nobody",
        "war: joins under a tag that is somebody's only later",
        "war: one without rows before one with rows",
        "war: two have rows",
    ];

    #[test]
    fn wars_are_drawn() {
        let mut random = Random::new(1_001);
        let mut seen = Seen::default();
        for number in 0..1_000 {
            let campaign = wars::campaign(&mut random);
            assert_eq!(compare(&campaign, number, usize::MAX, &mut seen), Ok(()));
        }
        let few = 3 * seen.times("campaign: all") / 20;
        let times = WAR_CASES.map(|what| (what, seen.times(what)));
        let rare: Vec<_> = times.into_iter().filter(|&(_, times)| times <= few).collect();
        assert_eq!(rare, []);
    }

    /// Each is to be met oftener than in one of twenty campaigns; these three are rare.
    const RARE_IN_LEDGERS: [&str; 3] =
        ["ledger: a tag comes back", "ledger: year 0", "ledger: year 9999"];

    #[test]
    fn ledgers_are_drawn() {
        let mut random = Random::new(1_002);
        let mut seen = Seen::default();
        for number in 0..1_000 {
            let campaign = ledgers::campaign(&mut random);
            assert_eq!(compare(&campaign, number, usize::MAX, &mut seen), Ok(()));
        }
        let enough = |what: &&str| {
            let few = if RARE_IN_LEDGERS.contains(what) { 10 } else { 50 };
            seen.times(what) > few
        };
        let times = LEDGER_CASES.into_iter().filter(|what| !enough(what));
        let rare: Vec<_> = times.map(|what| (what, seen.times(what))).collect();
        assert_eq!(rare, []);
    }

    /// The worked record alone has few of them, so that the two tests above could fail.
    #[test]
    fn hard_cases_of_the_worked_record() {
        let rare = rare(&noted([&sample::worked()]));
        assert_eq!(rare.len(), HARD_CASES.len() - 3, "{rare:?}");
    }

    #[test]
    fn small_campaigns() {
        let mut random = Random::new(1618);
        let mut seen = Seen::default();
        for number in 0..5_000 {
            let campaign = players::campaign(&mut random);
            let outcome = compare(&campaign, number, usize::MAX, &mut seen);
            assert_eq!(outcome, Ok(()), "{campaign:#?}");
        }
        assert_eq!(seen.never(), [] as [&str; 0]);
    }
}
