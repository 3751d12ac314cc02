//! What `--help` says.

use std::fmt::Write;

use super::{Command, COMMANDS, OPTIONS};
use crate::terminal::{width, wrapped};

/// What is to be said of every command, a paragraph each.
const NOTES: [&str; 3] = [
    "FILE is a packed record, or `-` for standard input. A TAG is three ASCII letters, digits or `-`; a DATE or DAY \
     is 1444-11-11, 1444.11.11 or 14441111, in a calendar without leap days. A value stands behind its option, or as \
     `--option=value`; behind `--` nothing is an option.",
    "Exit status: 0 for an answer, 1 for a refusal, 2 for wrong usage, a bad date or tag, a file that cannot be read \
     and an output that is closed. A refusal has a number and says what to do; with --json it is an object with the \
     keys refused, words, advice, and found, room, needed where they are known. Remarks stand on standard error.",
    "In text and in tables a name has escapes (\\n, \\u{202e}, \\xff, and \\\\ for a backslash) in place of what would move or \
     turn a terminal's line, or is no UTF-8; in JSON it is the same text, with its bytes beside it if they are no UTF-8.",
];

fn notes(width: usize) -> String {
    NOTES.iter().map(|note| format!("\n{}\n", wrapped(note, width, 0))).collect()
}

/// Lines of a table: what is explained, and in a column of its own what is said about it.
fn explained(help: &mut String, what: &str, about: &str, width: usize) {
    const COLUMN: usize = 20;
    if what.len() + 4 > COLUMN {
        let _ = write!(help, "  {}\n{:COLUMN$}", wrapped(what, width, 6), "");
    } else {
        let _ = write!(help, "  {what:<17} ");
    }
    let text = wrapped(about, width.saturating_sub(COLUMN), 0);
    let _ = writeln!(help, "{}", text.replace('\n', &format!("\n{:COLUMN$}", "")));
}

/// What `--help` says without a command.
pub fn overview() -> String {
    let width = width();
    let mut help = String::from(
        "chronicle tells the chronicle of a packed campaign record.\n\n\
         usage: chronicle COMMAND FILE [ARGUMENT..] [OPTION..]\n\n",
    );
    for command in &COMMANDS {
        explained(&mut help, &command.usage(), command.about, width);
    }
    help.push('\n');
    for choice in &OPTIONS {
        let value = choice.value.map_or_else(String::new, |value| format!(" {value}"));
        explained(&mut help, &format!("{}{value}", choice.name), choice.about, width);
    }
    help + &notes(width)
}

/// What `--help` says about a command.
pub fn about(command: &Command) -> String {
    let width = width();
    let usage = wrapped(&format!("chronicle {}", command.usage()), width, 4);
    let about = wrapped(&format!("  {}.", command.about), width, 2);
    let mut help = format!("{usage}\n{about}\n\n");
    for choice in command.choices() {
        let value = choice.value.map_or_else(String::new, |value| format!(" {value}"));
        explained(&mut help, &format!("{}{value}", choice.name), choice.about, width);
    }
    if command.takes("--json") {
        let _ = writeln!(help, "\n--json gives an object for each row, a line each, with the keys");
        for keys in command.keys.lines() {
            let _ = writeln!(help, "{}", wrapped(&format!("  {keys}"), width, 4));
        }
    }
    if command.takes("--csv") {
        let columns = format!(
            "--csv gives the columns {}; a list stands in one cell, as JSON.",
            command.columns.join(", ")
        );
        let _ = writeln!(help, "\n{}", wrapped(&columns, width, 2));
    }
    help + &notes(width)
}
