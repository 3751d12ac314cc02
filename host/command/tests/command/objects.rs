//! Each command's objects for programs.

use chronicle_trial::pack::pack;
use chronicle_trial::sample::isles;

use super::{about, remarked, run, told, written};

/// The lines that a command about a sample prints for programs.
fn lines(sample: &str, command: &str, rest: &[&str]) -> Vec<String> {
    let rest = [rest, &["--json"]].concat();
    told(about(sample, command, &rest)).lines().map(str::to_string).collect()
}

#[test]
fn of_every_command() {
    let first = |command, rest: &[&str]| lines("isles.atl", command, rest).swap_remove(0);
    assert_eq!(first("check", &[]), r#"{"accepted":true}"#);
    let change = r#"{"number":0,"date":"1450-06-01","province":15,"from":"MUN","to":"TYR"}"#;
    assert_eq!(first("owners", &[]), change);
    assert_eq!(first("on", &["1450-06-01"]), change);
    assert_eq!(first("resolve", &["TYR", "1444-11-11"]), r#"{"current":"IRE","stored":"IRE"}"#);
    let (initial, _) = remarked(about("isles.atl", "initial", &["XXX", "--json"]));
    assert_eq!(initial, "{\"current\":null,\"stored\":null}\n");
    assert_eq!(first("holders", &[]), r#"{"province":0,"holder":null}"#);
    let spain = r#"{"number":3,"initial":"CAS","latest":"SPA","stored":"SPA","held":4}"#;
    assert_eq!(first("living", &[]), spain);
    let france = r#"{"war":0,"date":"1444-11-11","side":"attacker","tag":"FRA","stored":"FRA"}"#;
    assert_eq!(first("wars", &[]), france);
    assert_eq!(first("ledger", &["IRE"]), r#"{"year":1445,"tag":"TYR","value":4}"#);
    assert_eq!(first("players", &[]), r#"{"name":"Ann","tag":"IRE","string":0}"#);
    let history = r#"{"initial":"TYR","latest":"IRE","stored":"IRE","nation":10,"human":true,"names":["Ann"],"strings":[0]}"#;
    assert_eq!(first("histories", &[]), history);
    assert_eq!(first("start", &[]), r#"{"start":"TYR"}"#);
}

#[test]
fn of_nations() {
    let expected = [
        concat!(
            r#"{"number":0,"initial":"ENG","latest":"GBR","stored":"GBR","state":"living","entries":["#,
            r#"{"date":"1446-01-01","kind":"annexed","target":null},"#,
            r#"{"date":"1447-01-01","kind":"appeared","target":null},"#,
            r#"{"date":"1448-06-01","kind":"switch","target":"GBR"}]}"#
        ),
        r#"{"number":1,"initial":"FRA","latest":"FRA","stored":"FRA","state":"living","entries":[]}"#,
    ];
    assert_eq!(lines("worked.atl", "nations", &[]), expected);
}

#[test]
fn of_a_page() {
    let expected = [
        r#"{"selected":2}"#,
        r#"{"tag":"GBR","initial":"ENG","latest":"GBR","entries":3,"state":"living"}"#,
        r#"{"tag":"SCO","state":"absent"}"#,
    ];
    let (page, _) = remarked(about("worked.atl", "page", &["GBR", "SCO", "--json"]));
    assert_eq!(page.lines().collect::<Vec<_>>(), expected);
    assert_eq!(lines("worked.atl", "page", &[]), [r#"{"selected":0}"#]);
}

#[test]
fn of_a_description() {
    let head_alone = lines("worked.atl", "describe", &[]);
    assert_eq!(head_alone.len(), 1);
    let lines = lines("worked.atl", "describe", &["--rows"]);
    assert_eq!(lines[0], head_alone[0]);
    let head = concat!(
        r#"{"section":"head","row":0,"offset":0,"version":1,"ironman":false,"multiplayer":false,"#,
        r#""start":"1444-11-11","current":"1450-01-01","countries":2,"provinces":2,"#,
        r#""previous_tags":0,"switches":1,"owner_events":2,"strings":0,"wars":0,"war_events":0,"#,
        r#""ledger_names":0,"ledger_points":0}"#
    );
    assert_eq!((lines.len(), lines[0].as_str()), (8, head));
    let switch = r#"{"section":"switch","row":0,"offset":68,"of":"country GBR","date":"1448-06-01","from":"ENG"}"#;
    assert_eq!(lines[3], switch);
}

/// Every key that a command prints is named by its help.
#[test]
fn keys_are_documented() {
    let asked: [(&str, &[&str]); 16] = [
        ("check", &[]),
        ("describe", &["--rows"]),
        ("holders", &[]),
        ("living", &[]),
        ("owners", &[]),
        ("on", &["1450-06-01"]),
        ("nations", &[]),
        ("resolve", &["TYR", "1444-11-11"]),
        ("initial", &["TYR"]),
        ("wars", &[]),
        ("ledger", &["IRE"]),
        ("players", &[]),
        ("histories", &[]),
        ("start", &[]),
        ("page", &["IRE", "TYR"]),
        ("ledger", &["XXX"]),
    ];
    for (command, rest) in asked {
        let help = told(run(&[command, "--help"]));
        let ran = about("isles.atl", command, &[rest, &["--json"]].concat());
        for line in ran.out.lines() {
            for part in line.split(['{', ',']).filter(|part| part.contains("\":")) {
                let key = part.trim_start_matches('"').split('"').next().unwrap_or_default();
                assert!(help.contains(key), "{command}: {key} in {line}");
            }
        }
    }
}

/// Names may be any bytes.
#[test]
fn of_names_that_are_no_text() {
    let mut campaign = isles();
    campaign.strings[0] = b"A\"\xff\n".to_vec();
    let file = written("names.atl", &pack(&campaign));
    let first = |rest: &[&str]| {
        let arguments = [&["players", file.text()], rest].concat();
        told(run(&arguments)).lines().next().unwrap_or_default().to_string()
    };
    let object = concat!(
        r#"{"name":"A\""#,
        "\u{fffd}",
        r#"\n","tag":"IRE","string":0,"name_bytes":"4122ff0a"}"#
    );
    assert_eq!(first(&["--json"]), object);
    assert_eq!(first(&[]), "A\"\\xff\\n plays IRE");
}

/// Where there is nothing to tell, there is no object.
#[test]
fn of_nothing() {
    for command in ["wars", "players", "histories"] {
        assert!(lines("worked.atl", command, &[]).is_empty(), "{command}");
    }
    assert!(lines("worked.atl", "on", &["1477-01-05"]).is_empty());
}
