//! Each command's text on the samples; what they hold is told in chronicle_trial's sample tests.

use super::{about, command, ended, only_remarked, remarked, run, sample, told};
use std::fs::File;

#[test]
fn check() {
    let file = sample("worked.atl");
    let expected = format!("{}: accepted\n", file.display());
    assert_eq!(told(about("worked.atl", "check", &[])), expected);
}

#[test]
fn owners() {
    let expected = "\
1446-01-01  province 1     ENG -> FRA
1447-01-01  province 2     FRA -> ENG
";
    assert_eq!(told(about("worked.atl", "owners", &[])), expected);
    assert_eq!(told(about("isles.atl", "owners", &[])).lines().count(), 12);
}

#[test]
fn on() {
    let expected = "\
1477-01-05  province 7     BUR -> FRA
1477-01-05  province 8     BUR -> FRA
";
    for date in ["1477-01-05", "1477.1.5", "14770105"] {
        assert_eq!(told(about("isles.atl", "on", &[date])), expected);
    }
    only_remarked(about("worked.atl", "on", &["1477-01-05"]), "no owner changed on 1477-01-05");
}

#[test]
fn nations() {
    let expected = "\
ENG, now GBR, stored under GBR, living
  1446-01-01 is annexed
  1447-01-01 appears
  1448-06-01 becomes GBR
FRA, now FRA, stored under FRA, living
";
    assert_eq!(told(about("worked.atl", "nations", &[])), expected);
    let isles = told(about("isles.atl", "nations", &[]));
    let tyrone = "\
TYR, now IRE, stored under IRE, living
  1460-03-01 becomes ULS
  1465-03-01 becomes IRE
";
    assert!(isles.ends_with(tyrone), "{isles}");
    let burgundy = "BUR, now BUR, stored under BUR, annexed\n  1477-01-05 is annexed\n";
    assert!(isles.contains(burgundy), "{isles}");
}

/// Those whom the page calls living, each with what it holds.
#[test]
fn living() {
    let expected = "\
CAS, now SPA, stored under SPA, holds 4 provinces
ENG, now GBR, stored under GBR, holds 3 provinces
FRA, now FRA, stored under FRA, holds 4 provinces
NED, now NED, stored under NED, holds 1 province
POR, now POR, stored under POR, holds 1 province
SCO, now SCO, stored under SCO, holds 1 province
TYR, now IRE, stored under IRE, holds 3 provinces
";
    assert_eq!(told(about("isles.atl", "living", &[])), expected);
    let tags = ["ARA", "BRI", "BUR", "SPA", "GBR", "FRA", "MUN", "NED", "POR", "SCO", "IRE"];
    let page = told(about("isles.atl", "page", &tags));
    for line in page.lines().skip(1) {
        let stored = format!("stored under {},", &line[..3]);
        assert_eq!(line.ends_with(" living"), expected.contains(&stored), "{line}");
    }
}

#[test]
fn holders() {
    let expected = "province 0     nobody\nprovince 1     FRA\nprovince 2     GBR\n";
    assert_eq!(told(about("worked.atl", "holders", &[])), expected);
    let isles = told(about("isles.atl", "holders", &[]));
    assert_eq!(isles.lines().count(), 19);
    assert!(isles.contains("province 7     FRA\n"), "{isles}");
}

#[test]
fn resolve() {
    let resolve = |rest: &[&str]| told(about("worked.atl", "resolve", rest));
    assert_eq!(resolve(&["GBR", "1448-05-31"]), "none\n");
    assert_eq!(resolve(&["GBR", "1448-06-01"]), "GBR, stored under GBR\n");
    let at = resolve(&["ENG", "1448-05-31", "--at", "1448-05-31"]);
    assert_eq!(at, "ENG, stored under GBR\n");
}

#[test]
fn initial() {
    let initial = |rest: &[&str]| told(about("isles.atl", "initial", rest));
    assert_eq!(initial(&["TYR"]), "IRE, stored under IRE\n");
    assert_eq!(initial(&["TYR", "--at", "1461-01-01"]), "ULS, stored under IRE\n");
    assert_eq!(initial(&["--at", "1450-01-01", "TYR"]), "none\n");
}

#[test]
fn wars() {
    let isles = told(about("isles.atl", "wars", &[]));
    assert_eq!(
        isles.lines().nth(4),
        Some("1460-08-01  war 1     TYR as defender, stored under IRE")
    );
    only_remarked(about("worked.atl", "wars", &[]), "nobody entered a war");
}

#[test]
fn ledger() {
    let isles = told(about("isles.atl", "ledger", &["IRE"]));
    assert!(isles.starts_with("1445  TYR  4\n1446  TYR  0\n1447  TYR  5\n"), "{isles}");
    assert_eq!(isles.lines().count(), 106);
    assert!(isles.contains("\n1470  IRE  -3\n"));
    let worked = about("worked.atl", "ledger", &["GBR"]);
    only_remarked(worked, "the ledger has no tag that it wore");
}

#[test]
fn players() {
    assert_eq!(told(about("isles.atl", "players", &[])), "Ann plays IRE\nBob plays NED\n");
    only_remarked(about("worked.atl", "players", &[]), "nobody plays");
}

#[test]
fn histories() {
    let expected = "\
TYR, now IRE, stored under IRE, human: Ann
NED, now NED, stored under NED, human: Bob
SCO, now SCO, stored under SCO: nobody
";
    assert_eq!(told(about("isles.atl", "histories", &[])), expected);
    only_remarked(about("worked.atl", "histories", &[]), "no country was played");
}

#[test]
fn start() {
    assert_eq!(told(about("isles.atl", "start", &[])), "TYR\n");
    assert_eq!(told(about("worked.atl", "start", &[])), "none\n");
}

/// No tag selects nothing; never all nations.
#[test]
fn page() {
    let expected = "selected 2\nGBR ENG GBR 3 living\nFRA FRA FRA 0 living\n";
    assert_eq!(told(about("worked.atl", "page", &["GBR", "FRA"])), expected);
    assert_eq!(told(about("isles.atl", "page", &[])), "selected 0\n");
    let (page, _) = remarked(about("worked.atl", "page", &["---"]));
    assert_eq!(page, "selected 1\n--- absent\n");
}

#[test]
fn describe() {
    let short = told(about("worked.atl", "describe", &[]));
    assert_eq!(short.lines().count(), 22, "{short}");
    let worked = told(about("worked.atl", "describe", &["--rows"]));
    assert!(short.lines().all(|line| worked.contains(line)), "{worked}");
    for part in [
        ": 103 bytes, accepted\n",
        "head: version 1, no flags, from 1444-11-11 to 1450-01-01\n",
        "country: 2 rows, 24 bytes at offset 44\n",
        "  row 0      at 44       GBR, cities: 0, 0 previous tags, 1 switch\n",
        "  row 0      at 68       1448-06-01 from ENG  (country GBR)\n",
        "  row 1      at 96       1447-01-01 to ENG  (province 2)\n",
    ] {
        assert!(worked.contains(part), "{part}{worked}");
    }
    let isles = told(about("isles.atl", "describe", &["--rows"]));
    for part in [
        "1453-07-17 ENG is in a battle  (war 0)\n",
        "1470: -3  (ledger of IRE)\n",
        "\"Ann\"\n",
        "ARA, cities: 0",
        "1477-01-05 to FRA  (province 7)\n",
    ] {
        assert!(isles.contains(part), "{part}{isles}");
    }
}

#[test]
fn standard_input() {
    let file = File::open(sample("isles.atl")).expect("the sample is there");
    let output = command().args(["start", "-"]).stdin(file).output().expect("it starts");
    assert_eq!(told(ended(output)), "TYR\n");
}

#[cfg(unix)]
#[test]
fn a_path_that_is_no_text() {
    use std::ffi::OsStr;
    use std::os::unix::ffi::OsStrExt;

    let bytes = std::fs::read(sample("isles.atl")).expect("the sample is there");
    let file = super::written(OsStr::from_bytes(b"\xff\xfe.atl"), &bytes);
    assert_eq!(told(run(&[OsStr::new("start"), file.path.as_os_str()])), "TYR\n");
    let ran = run(&[OsStr::new("check"), file.path.as_os_str()]);
    assert_eq!(ran.status, 0, "{ran:?}");
}

#[test]
fn a_path_that_looks_like_an_option() {
    let bytes = std::fs::read(sample("isles.atl")).expect("the sample is there");
    let file = super::written("--json", &bytes);
    let mut command = command();
    command.current_dir(file.folder.path());
    let output = command.args(["start", "--", "--json"]).output().expect("it starts");
    assert_eq!(told(ended(output)), "TYR\n");
}
