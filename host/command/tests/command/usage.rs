//! Help, version and wrong usage.

use super::{about, run, sample, told, ANSWERS};

#[test]
fn help_lists_every_command() {
    let help = told(run(&["--help"]));
    assert_eq!(help, told(run(&["-h"])));
    assert_eq!(help, told(run(&["help"])));
    for command in ANSWERS {
        assert!(help.contains(&format!("\n  {command} FILE")), "{command}");
    }
}

#[test]
fn help_of_each_command() {
    for command in ANSWERS {
        let help = told(run(&[command, "--help"]));
        assert!(help.starts_with(&format!("chronicle {command} FILE")), "{help}");
        assert_eq!(help.contains("--json gives an object"), command != "timeline", "{help}");
        let tables = !["timeline", "describe"].contains(&command);
        assert_eq!(help.contains("--csv gives the columns"), tables, "{help}");
        assert!(help.contains("Exit status: 0 for an answer, 1 for a refusal, 2 for wrong usage"));
        assert_eq!(help, told(run(&["help", command])));
    }
}

#[test]
fn version() {
    let version = format!("chronicle {}\n", env!("CARGO_PKG_VERSION"));
    assert_eq!(told(run(&["--version"])), version);
    assert_eq!(told(run(&["-V"])), version);
}

#[test]
fn wrong_usage() {
    let wrong = |arguments: &[&str], said: &str| {
        let ran = run(arguments);
        assert_eq!((ran.status, ran.out.as_str()), (2, ""), "{ran:?}");
        assert!(ran.err.starts_with(&format!("chronicle: {said}\n")), "{ran:?}");
        assert!(ran.err.contains("chronicle --help"), "{ran:?}");
    };
    wrong(&[], "a command is missing");
    wrong(&["--json"], "a command is missing");
    wrong(&["tell"], "there is no command tell");
    wrong(&["help", "tell"], "there is no command tell");
    wrong(&["check"], "usage: chronicle check FILE..");
    wrong(&["owners", "a", "b"], "usage: chronicle owners FILE");
    wrong(&["on", "a"], "usage: chronicle on FILE DATE");
    wrong(&["resolve", "a", "ENG"], "usage: chronicle resolve FILE TAG DATE [--at DAY] [--strict]");
    wrong(&["check", "a", "--loud"], "there is no option --loud");
    wrong(
        &["owners", "a", "--at", "1444-11-11"],
        "owners takes no --at; usage: chronicle owners FILE",
    );
    wrong(&["initial", "a", "ENG", "--at"], "behind `--at` stands a DAY, and it is missing");
    wrong(&["owners", "a", "--json=yes"], "--json takes no value");
    wrong(&["owners", "a", "--json", "--csv"], "rows are told by --json or by --csv");
    let file = sample("worked.atl");
    let file = file.to_str().expect("it is text");
    wrong(
        &["describe", file, "--most", "0"],
        "behind `--most` stands a number from 1 on, and `0` is none",
    );
    wrong(&["completions", "tcsh"], "completions are for bash, zsh, fish");
}

/// What was nearly right is told.
#[test]
fn mistyped() {
    let said = |arguments: &[&str]| {
        let ran = run(arguments);
        assert_eq!((ran.status, ran.out.as_str()), (2, ""), "{ran:?}");
        ran.err.lines().next().unwrap_or_default().to_string()
    };
    assert_eq!(
        said(&["nation", "a"]),
        "chronicle: there is no command nation; did you mean nations?"
    );
    assert_eq!(said(&["ownres"]), "chronicle: there is no command ownres; did you mean owners?");
    assert_eq!(said(&["help", "paeg"]), "chronicle: there is no command paeg; did you mean page?");
    assert_eq!(
        said(&["check", "a", "--jsn"]),
        "chronicle: there is no option --jsn; did you mean --json?"
    );
    assert_eq!(said(&["weather"]), "chronicle: there is no command weather");
    assert_eq!(said(&["a\u{1b}[2Jb"]), "chronicle: there is no command a\\u{1b}[2Jb");
}

/// A value may stand behind its option or behind `=`.
#[test]
fn values_of_options() {
    let initial = |rest: &[&str]| told(about("isles.atl", "initial", rest));
    let expected = "ULS, stored under IRE\n";
    assert_eq!(initial(&["TYR", "--at=1461-01-01"]), expected);
    assert_eq!(initial(&["--at", "1461-01-01", "TYR"]), expected);
    // Of two the later counts.
    assert_eq!(initial(&["--at=1450-01-01", "TYR", "--at=1461-01-01"]), expected);
}

/// Where it is no terminal, help has 80 columns.
#[test]
fn help_is_eighty_columns_wide() {
    let mut helps = vec![told(run(&["--help"]))];
    helps.extend(ANSWERS.map(|command| told(run(&[command, "--help"]))));
    for help in helps {
        let long = help.lines().find(|line| line.chars().count() > 80);
        assert_eq!(long, None, "{help}");
    }
}

/// At a terminal it has the columns of the terminal.
#[cfg(target_os = "linux")]
#[test]
fn help_is_as_wide_as_the_terminal() {
    let longest = |columns: usize| {
        let line = format!("stty cols {columns}; {} --help", env!("CARGO_BIN_EXE_chronicle"));
        let text = super::at_terminal(&line)?;
        text.lines().map(|line| line.trim_end().chars().count()).max()
    };
    for (columns, least) in [(60, 45), (140, 101)] {
        let longest = longest(columns);
        assert!(longest.is_none_or(|longest| (least..=columns).contains(&longest)), "{longest:?}");
    }
}

#[test]
fn a_file_that_cannot_be_read() {
    let ran = about("no_such_file.atl", "check", &[]);
    assert_eq!((ran.status, ran.out.as_str()), (2, ""));
    assert!(
        ran.err.starts_with("chronicle: ") && ran.err.contains("no_such_file.atl: "),
        "{ran:?}"
    );
    let ran = about(".", "check", &[]);
    assert_eq!((ran.status, ran.out.as_str()), (2, ""), "{ran:?}");
}
