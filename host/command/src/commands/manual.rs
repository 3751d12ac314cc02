//! The manual page, in the language of `man`.

use std::fmt::Write;

use super::{COMMANDS, OPTIONS};

/// The whole page.
pub fn page() -> String {
    let mut page = format!(
        ".TH CHRONICLE 1 \"\" \"chronicle {}\" \"User Commands\"\n\
         .SH NAME\nchronicle \\- tell the chronicle of a packed campaign record\n\
         .SH SYNOPSIS\n.B chronicle\n.I COMMAND FILE\n[\\fIARGUMENT\\fR ...] [\\fIOPTION\\fR ...]\n",
        chronicle::VERSION
    );
    page.push_str(".SH DESCRIPTION\n");
    paragraph(&mut page, DESCRIPTION);
    page.push_str(".SH COMMANDS\n");
    for command in &COMMANDS {
        let _ =
            writeln!(page, ".TP\n.B {}\n{}.", escaped(&command.usage()), escaped(command.about));
        if !command.columns.is_empty() {
            let _ = writeln!(page, "Columns: {}.", escaped(&command.columns.join(", ")));
        }
    }
    page.push_str(".SH OPTIONS\n");
    for choice in &OPTIONS {
        let value = choice.value.map_or_else(String::new, |value| format!(" \\fI{value}\\fR"));
        let _ = writeln!(
            page,
            ".TP\n\\fB{}\\fR{value}\n{}.",
            escaped(choice.name),
            escaped(choice.about)
        );
    }
    page.push_str(".SH EXIT STATUS\n");
    for (status, meaning) in STATUSES {
        let _ = writeln!(page, ".TP\n.B {status}\n{}.", escaped(meaning));
    }
    page.push_str(".SH EXAMPLES\n");
    for (example, about) in EXAMPLES {
        let _ = writeln!(page, ".TP\n.B {}\n{}.", escaped(example), escaped(about));
    }
    page
}

const DESCRIPTION: &str = "A packed record holds the countries, provinces, wars, ledgers and players of a campaign. \
    FILE is such a record, or - for standard input. A TAG is three ASCII letters, digits or -; a DATE or DAY is \
    1444-11-11, 1444.11.11 or 14441111, in a calendar without leap days. The value of an option stands behind it, or \
    as --option=value; behind -- nothing is an option. Rows stand on standard output, remarks on standard error.";

const STATUSES: [(u8, &str); 3] = [
    (0, "There is an answer"),
    (1, "The record is refused, or a nation is asked for that there is not; with --strict, a tag is unknown"),
    (2, "Wrong usage, a bad date or tag, a file that cannot be read, or an output that is closed"),
];

const EXAMPLES: [(&str, &str); 4] = [
    ("chronicle check *.atl", "Says of each record whether it is accepted"),
    ("chronicle page campaign.atl GBR FRA", "Prints the page of two nations"),
    ("chronicle nations campaign.atl --csv > nations.csv", "Makes a table of the nations"),
    (
        "chronicle timeline campaign.atl --changed-only > lives.svg",
        "Draws the nations that something befell",
    ),
];

fn paragraph(page: &mut String, text: &str) {
    let _ = writeln!(page, "{}", escaped(text));
}

/// Without what `man` would take for a request of its own.
fn escaped(text: &str) -> String {
    let text = text.replace('\\', "\\e").replace('-', "\\-");
    if text.starts_with(['.', '\'']) {
        return format!("\\&{text}");
    }
    text
}
