//! `chronicle timeline`.

use std::fs;

use chronicle_trial::extremes::nations;
use chronicle_trial::pack::{pack, Campaign, Country, OwnerEvent, Province, Switch, Tag};

use super::{about, remarked, run, sample, told, written};

/// samples/isles.svg is what README shows: after a change that is meant, look at the picture and
/// write it anew by `chronicle timeline samples/isles.atl > samples/isles.svg`.
#[test]
fn of_the_sample() {
    let drawn = told(about("isles.atl", "timeline", &[]));
    let kept = fs::read_to_string(sample("isles.svg")).expect("the picture is there");
    assert_eq!(drawn, kept);
}

#[test]
fn bars_gaps_and_marks() {
    let drawn = told(about("isles.atl", "timeline", &[]));
    assert_eq!(drawn.matches("<g>").count(), 11);
    // A background, a bar in the legend, and a bar a nation, two of Scotland.
    assert_eq!(drawn.matches("<rect ").count(), 1 + 1 + 11 + 1);
    assert_eq!(drawn.matches("class=\"mark\"").count(), 1 + 4);
    for worn in [">ULS</text>", ">IRE</text>", ">GBR</text>", ">SPA</text>", ">1500</text>"] {
        assert!(drawn.contains(worn), "{worn}");
    }
    // What the shapes mean, and the first day and the last.
    for told in
        ["holds land", "holds none for a time", "takes this tag", "holds none from that year on"]
    {
        assert!(drawn.contains(&format!("class=\"legend\">{told}</text>")), "{told}");
    }
    for day in ["class=\"first\">1444-11-11<", "class=\"last\">1550-01-01<"] {
        assert_eq!(drawn.matches(day).count(), 2, "{day}");
    }
    assert!(drawn.contains("class=\"right\">BUR † 1477</text>"));
}

/// Some nations, some years, and only those that something befell.
#[test]
fn of_a_part() {
    let draw = |rest: &[&str]| told(about("isles.atl", "timeline", rest));
    let groups = |drawn: &str| drawn.matches("<g>").count();
    let two = draw(&["IRE", "SCO"]);
    assert!(two.contains("2 of 11 nations, from 1444-11-11 to 1550-01-01"), "{two}");
    assert_eq!(groups(&two), 2);
    let years = draw(&["--from", "1460-01-01", "--to=1480.1.1"]);
    assert!(years.contains("from 1460-01-01 to 1480-01-01<"), "{years}");
    // Munster ended before, and the Netherlands appear behind; Scotland's two bars are cut off.
    assert_eq!(
        (groups(&years), years.contains(">MUN<"), years.contains(">NED<")),
        (9, false, false)
    );
    assert!(
        years.contains("class=\"right\">BUR † 1477<") && years.contains("class=\"right\">BRI<"),
        "{years}"
    );
    assert!(years.contains(">ULS</text>") && years.contains(">IRE</text>"), "{years}");
    let changed = draw(&["--from=1478-01-01", "--to=1500-01-01", "--changed-only"]);
    let tags = ["BRI", "CAS"].map(|tag| format!("class=\"left\">{tag}<"));
    assert_eq!(groups(&changed), 2, "{changed}");
    assert!(tags.iter().all(|tag| changed.contains(tag)), "{changed}");
    // A nation that is asked for is told also where it holds nothing.
    let later = draw(&["NED", "MUN", "--from=1460-01-01", "--to=1480-01-01"]);
    assert!(
        later.contains("class=\"right\">from 1520<")
            && later.contains("class=\"right\">MUN † 1450<"),
        "{later}"
    );
}

/// Days outside the campaign are none of its picture.
#[test]
fn of_no_day() {
    for days in [["--from=1500-01-01", "--to=1499-12-31"], ["--from=1600-01-01", "--to=1700-01-01"]]
    {
        let ran = about("isles.atl", "timeline", &days);
        assert_eq!((ran.status, ran.out.as_str()), (2, ""), "{ran:?}");
        assert!(
            ran.err.contains("no day of the campaign, which is told from 1444-11-11 to 1550-01-01"),
            "{ran:?}"
        );
    }
    let ran = about("isles.atl", "timeline", &["--part=2"]);
    assert_eq!((ran.status, ran.out.as_str()), (2, ""), "{ran:?}");
    assert!(ran.err.starts_with("chronicle: there is no picture 2: they are 1\n"), "{ran:?}");
}

fn draw(campaign: &Campaign, rest: &[&str]) -> (String, String) {
    let file = written("drawn.atl", &pack(campaign));
    remarked(run(&[&["timeline", file.text()], rest].concat()))
}

/// A campaign of countries that hold a province each, with their switches and the events of their provinces.
fn campaign(countries: &[(Tag, Vec<Switch>, Vec<OwnerEvent>)]) -> Campaign {
    let initial =
        |tag: Tag, switches: &[Switch]| switches.first().map_or(tag, |switch| switch.from);
    let country = |(tag, switches, _): &(Tag, Vec<Switch>, _)| Country {
        tag: *tag,
        switches: switches.clone(),
        ..Country::default()
    };
    let province =
        |(number, (tag, switches, events)): (usize, &(Tag, Vec<Switch>, Vec<OwnerEvent>))| {
            Province {
                id: number as u16 + 1,
                owner: initial(*tag, switches),
                events: events.clone(),
            }
        };
    Campaign {
        start: 14441111,
        current: 15500101,
        countries: countries.iter().map(country).collect(),
        provinces: countries.iter().enumerate().map(province).collect(),
        ..Campaign::default()
    }
}

/// The places of the texts of a class that is one of these, each with its text.
fn texts(drawn: &str, classes: &[&str]) -> Vec<(f64, String)> {
    let line = |line: &str| {
        let (x, rest) = line.strip_prefix("<text x=\"")?.split_once('"')?;
        let (class, text) = rest.split_once("class=\"")?.1.split_once("\">")?;
        classes
            .contains(&class)
            .then(|| (x.parse().ok(), text.trim_end_matches("</text>").to_string()))
    };
    drawn.lines().filter_map(line).filter_map(|(x, text)| Some((x?, text))).collect()
}

/// Tags of switches that follow within months stand side by side, each with a line from its mark.
#[test]
fn near_labels_are_moved() {
    let switch = |number: u32| {
        let digits = [b'0' + (number / 10) as u8, b'0' + (number % 10) as u8];
        Switch {
            date: 14450101 + 100 * (number % 12) + 10_000 * (number / 12),
            from: [b'A', digits[0], digits[1]],
        }
    };
    let near = campaign(&[(*b"ZZZ", (0..20).map(switch).collect(), vec![])]);
    let (drawn, said) = draw(&near, &[]);
    assert_eq!((drawn.matches("class=\"mark\"").count(), said.as_str()), (21, ""));
    let labels: Vec<(f64, String)> =
        texts(&drawn, &["worn", "bare"]).into_iter().filter(|(_, text)| text != "TAG").collect();
    let expected: Vec<String> =
        (1..20).map(|n| format!("A{n:02}")).chain(["ZZZ".to_string()]).collect();
    assert_eq!(labels.iter().map(|(_, text)| text.clone()).collect::<Vec<_>>(), expected);
    assert!(labels.windows(2).all(|pair| pair[1].0 - pair[0].0 >= 25.9), "{labels:?}");
    assert!(labels.iter().all(|(x, _)| (84.0..=988.0 - 26.0).contains(x)), "{labels:?}");
    assert_eq!(drawn.matches("class=\"lead\"").count(), 19);
    // Of more than have room the last place says how many there are.
    let very_many = campaign(&[(*b"ZZZ", (0..90).map(switch).collect(), vec![])]);
    let (drawn, _) = draw(&very_many, &[]);
    let labels = texts(&drawn, &["worn", "bare"]);
    assert!(labels.len() == 1 + 34 && labels.iter().any(|(_, text)| text == "+57"), "{labels:?}");
}

/// A switch behind the end of a nation is told, and not marked.
#[test]
fn no_marks_behind_the_end() {
    let switches = [(14500101, *b"D00"), (14900101, *b"D01")];
    let switches = switches.map(|(date, from)| Switch { date, from }).to_vec();
    let lost = vec![OwnerEvent { date: 14700101, tag: *b"ENG" }];
    let (drawn, _) = draw(&campaign(&[(*b"ENG", vec![], vec![]), (*b"DDD", switches, lost)]), &[]);
    assert_eq!(drawn.matches("class=\"mark\"").count(), 1 + 1, "{drawn}");
    assert!(drawn.contains(">D01</text>") && drawn.contains("1490-01-01 becomes DDD"), "{drawn}");
    assert_eq!(
        texts(&drawn, &["worn", "bare"]).iter().filter(|(_, text)| text == "DDD").count(),
        0
    );
}

/// Nothing to draw, and a single day.
#[test]
fn of_extremes() {
    let empty = Campaign { start: 14441111, current: 14441111, ..Campaign::default() };
    let (drawn, _) = draw(&empty, &[]);
    assert!(drawn.starts_with("<svg ") && drawn.ends_with("</svg>\n"), "{drawn}");
    assert!(drawn.contains("0 nations, from 1444-11-11 to 1444-11-11"), "{drawn}");
}

fn height(drawn: &str) -> u32 {
    let (_, rest) = drawn.split_once(" height=\"").expect("it has a height");
    rest.split('"').next().and_then(|number| number.parse().ok()).expect("it is a number")
}

/// As many nations as there can be: several pictures, none too high, and each nation in one of them.
#[test]
fn of_thousands_of_nations() {
    let file = written("drawn.atl", &pack(&nations(1)));
    let listed = told(run(&["nations", file.text(), "--json"])).lines().count();
    let (first, said) = remarked(run(&["timeline", file.text()]));
    let parts: usize = (said.strip_prefix("chronicle: this is picture 1 of "))
        .and_then(|rest| rest.split(':').next()?.parse().ok())
        .expect("it says how many there are");
    let (mut drawn_rows, mut grouped) = (0, 0);
    for part in 1..=parts {
        let (drawn, _) = remarked(run(&["timeline", file.text(), "--part", &part.to_string()]));
        assert!(height(&drawn) <= 4_000, "{part}: {}", height(&drawn));
        assert!(!drawn.contains("NaN") && !drawn.contains("inf"));
        assert!(part > 1 || drawn == first);
        drawn_rows += drawn.matches("<g>").count();
        grouped += texts(&drawn, &["tags"])
            .iter()
            .filter(|(_, tags)| !tags.ends_with(':'))
            .map(|(_, tags)| tags.split(' ').count())
            .sum::<usize>();
    }
    let title = texts(&first, &["title"]);
    let shown = title[0].1.split(' ').next().and_then(|count| count.parse::<usize>().ok());
    assert_eq!(shown, Some(drawn_rows + grouped), "{title:?}");
    assert!(listed > 1_000 && drawn_rows + grouped <= listed && parts > 1, "{listed} {parts}");
}

/// A thousand nations of which few change are one picture: these as rows, and the others in lines of tags.
#[test]
fn those_that_nothing_befell_are_grouped() {
    let tag = |number: usize| {
        [b'A' + (number / 676) as u8, b'A' + (number / 26 % 26) as u8, b'A' + (number % 26) as u8]
    };
    let lost = |number: usize| {
        number.is_multiple_of(20).then_some(OwnerEvent { date: 14700101, tag: tag(1) })
    };
    let countries: Vec<_> = (0..1_000)
        .map(|number| (tag(number), vec![], lost(number).into_iter().collect()))
        .collect();
    let (drawn, said) = draw(&campaign(&countries), &[]);
    assert_eq!((said.as_str(), drawn.matches("<g>").count()), ("", 50));
    assert!(drawn.contains(">950 nations that nothing befell:</text>"), "{drawn}");
    assert!(height(&drawn) < 2_000, "{}", height(&drawn));
}
