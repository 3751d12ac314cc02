//! `--csv`: a line of cells a row.

use chronicle_trial::pack::pack;
use chronicle_trial::sample::isles;

use super::{about, only_remarked, remarked, run, told, written};

/// The cells of a line, as a table reads them.
fn cells(line: &str) -> Vec<String> {
    let (mut cells, mut quoted) = (vec![String::new()], false);
    let mut letters = line.chars().peekable();
    while let Some(letter) = letters.next() {
        let last = cells.last_mut().expect("there is one");
        match letter {
            '"' if quoted && letters.peek() == Some(&'"') => last.extend(letters.next()),
            '"' => quoted = !quoted,
            ',' if !quoted => cells.push(String::new()),
            letter => last.push(letter),
        }
    }
    assert!(!quoted, "{line}");
    cells
}

/// Each table has its columns first, as its help says, and as many cells in every line.
#[test]
fn of_every_command() {
    let asked: [(&str, &[&str]); 14] = [
        ("check", &[]),
        ("owners", &[]),
        ("on", &["1450-06-01"]),
        ("holders", &[]),
        ("nations", &[]),
        ("living", &[]),
        ("resolve", &["TYR", "1450-01-01"]),
        ("initial", &["TYR"]),
        ("wars", &[]),
        ("ledger", &["IRE"]),
        ("players", &[]),
        ("histories", &[]),
        ("start", &[]),
        ("page", &["IRE", "GBR"]),
    ];
    for (command, rest) in asked {
        let table = told(about("isles.atl", command, &[rest, &["--csv"]].concat()));
        let objects = told(about("isles.atl", command, &[rest, &["--json"]].concat()));
        let columns = table.lines().next().expect("there are columns").replace(',', ", ");
        let help = told(run(&[command, "--help"])).replace("\n  ", " ");
        assert!(help.contains(&format!("--csv gives the columns {columns};")), "{command} {help}");
        let widths: Vec<usize> = table.lines().map(|line| cells(line).len()).collect();
        assert!(widths.iter().all(|&width| width == widths[0]), "{command} {table}");
        // The first object of a page has no cells.
        let others = if command == "page" { 0 } else { 1 };
        assert_eq!(table.lines().count(), objects.lines().count() + others, "{command}");
    }
}

#[test]
fn of_some_rows() {
    let table = told(about("isles.atl", "owners", &["--csv"]));
    assert!(
        table.starts_with("number,date,province,from,to\n0,1450-06-01,15,MUN,TYR\n"),
        "{table}"
    );
    let (page, _) = remarked(about("worked.atl", "page", &["GBR", "XXX", "--csv"]));
    assert_eq!(page, "tag,initial,latest,entries,state\nGBR,ENG,GBR,3,living\nXXX,,,,absent\n");
    assert_eq!(
        told(about("worked.atl", "holders", &["--csv"])),
        "province,holder\n0,\n1,FRA\n2,GBR\n"
    );
    let nations = told(about("worked.atl", "nations", &["--csv"]));
    let entries = cells(nations.lines().nth(1).expect("a nation")).pop().expect("a cell");
    assert!(entries.starts_with("[{\"date\":\"1446-01-01\",\"kind\":\"annexed\""), "{entries}");
}

/// Without rows there are the columns alone, and nothing is remarked to a program.
#[test]
fn of_nothing() {
    assert_eq!(told(about("worked.atl", "wars", &["--csv"])), "war,date,side,tag,stored\n");
    only_remarked(about("worked.atl", "wars", &[]), "nobody entered a war");
}

/// Commas, quotation marks and lines in a name stay in its cell.
#[test]
fn of_names() {
    let mut campaign = isles();
    campaign.strings[0] = b"A, \"B\"\nC\xff".to_vec();
    let file = written("names.atl", &pack(&campaign));
    let table = told(run(&["players", file.text(), "--csv"]));
    let expected = ["A, \"B\"\\nC\u{fffd}", "IRE", "0", "412c202242220a43ff"];
    assert_eq!(cells(table.lines().nth(1).expect("a player")), expected);
    assert_eq!(table.lines().count(), 3);
}
