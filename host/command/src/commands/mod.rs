//! The commands and their options: what usage, help, completions and the manual are made of.

pub mod completions;
pub mod help;
pub mod manual;

use std::fmt::Write;

/// Which files a command is about.
#[derive(Clone, Copy, Debug, PartialEq, Eq)]
pub enum Files {
    None,
    One,
    /// One or more.
    Several,
}

/// A command, and how it is used.
#[derive(Debug)]
pub struct Command {
    pub name: &'static str,
    pub files: Files,
    /// What stands behind FILE.
    pub arguments: &'static [&'static str],
    /// The options that it takes, beside `--help`.
    pub options: &'static [&'static str],
    /// A line about it.
    pub about: &'static str,
    /// The keys of an object that `--json` gives.
    pub keys: &'static str,
    /// The columns that `--csv` gives: keys of the objects.
    pub columns: &'static [&'static str],
}

/// An option: its name, the value that it takes, and what it does.
#[derive(Debug)]
pub struct Choice {
    pub name: &'static str,
    pub value: Option<&'static str>,
    pub about: &'static str,
}

const fn choice(name: &'static str, value: Option<&'static str>, about: &'static str) -> Choice {
    Choice { name, value, about }
}

/// Every option, in the order in which they are listed.
pub const OPTIONS: [Choice; 12] = [
    choice("--at", Some("DAY"), "answers as of this day"),
    choice("--rows", None, "tells the rows too, each with its number and offset"),
    choice("--most", Some("N"), "tells at most so many offences, 20 without it"),
    choice("--from", Some("DATE"), "draws from this day on"),
    choice("--to", Some("DATE"), "draws up to this day"),
    choice("--changed-only", None, "draws only the nations that something befell in that time"),
    choice("--part", Some("N"), "draws this picture of several, from 1"),
    choice("--strict", None, "fails with status 1 if no nation is known by a tag that is given"),
    choice("--json", None, "an object a row, for programs"),
    choice("--csv", None, "a line of cells a row, under the names of the columns, for tables"),
    choice("--help", None, "this, or more about a command"),
    choice("--version", None, "the version of this program"),
];

const ROWS: &[&str] = &["--json", "--csv"];

const PLAIN: Command = Command {
    name: "",
    files: Files::One,
    arguments: &[],
    options: ROWS,
    about: "",
    keys: "",
    columns: &[],
};

/// In the order in which they are listed.
pub const COMMANDS: [Command; 18] = [
    Command {
        name: "check",
        files: Files::Several,
        about: "says of each file whether it is an accepted record, and if not, why",
        keys: "file (where there are several), accepted (true), or those of a refusal",
        columns: &["file", "accepted", "refused", "words", "advice"],
        ..PLAIN
    },
    Command {
        name: "describe",
        options: &["--rows", "--most", "--json"],
        about: "tells what a file is: where a refused record offends, its head, and how many rows it has",
        keys: DESCRIBED,
        ..PLAIN
    },
    Command {
        name: "owners",
        about: "lists every change of a province's owner",
        keys: "number, date, province, from, to",
        columns: &["number", "date", "province", "from", "to"],
        ..PLAIN
    },
    Command {
        name: "on",
        arguments: &["DATE"],
        about: "lists the owner changes of one day",
        keys: "number, date, province, from, to",
        columns: &["number", "date", "province", "from", "to"],
        ..PLAIN
    },
    Command {
        name: "holders",
        about: "tells who holds each province after the last change",
        keys: "province, holder (the tag that it is stored under, or null)",
        columns: &["province", "holder"],
        ..PLAIN
    },
    Command {
        name: "nations",
        about: "tells the nations that lived, what befell them, and which of them live",
        keys: "number, initial, latest, stored, state (living or annexed), entries (a list of date, kind, target; \
               kind is switch, appeared or annexed, target a tag or null)",
        columns: &["number", "initial", "latest", "stored", "state", "entries"],
        ..PLAIN
    },
    Command {
        name: "living",
        about: "lists the nations that live at the end, and how many provinces each holds",
        keys: "number, initial, latest, stored, held",
        columns: &["number", "initial", "latest", "stored", "held"],
        ..PLAIN
    },
    Command {
        name: "resolve",
        arguments: &["TAG", "DATE"],
        options: RESOLVED,
        about: "says where the country that went by a tag on a date is now, or was on the day of --at",
        keys: "current, stored (both null if there is none)",
        columns: &["current", "stored"],
        ..PLAIN
    },
    Command {
        name: "initial",
        arguments: &["TAG"],
        options: RESOLVED,
        about: "says where the country that began as a tag is now, or was on the day of --at",
        keys: "current, stored (both null if there is none)",
        columns: &["current", "stored"],
        ..PLAIN
    },
    Command {
        name: "wars",
        about: "lists who entered which war, when and on which side, and the tag each is stored under",
        keys: "war, date, side (attacker or defender), tag, stored",
        columns: &["war", "date", "side", "tag", "stored"],
        ..PLAIN
    },
    Command {
        name: "ledger",
        arguments: &["TAG"],
        about: "prints the yearly values of the nation stored under a tag",
        keys: "year, tag, value",
        columns: &["year", "tag", "value"],
        ..PLAIN
    },
    Command {
        name: "players",
        about: "lists those who play, and which country",
        keys: "name, tag, string (the number of the name); name_bytes (hexadecimal) if it is no UTF-8",
        columns: &["name", "tag", "string", "name_bytes"],
        ..PLAIN
    },
    Command {
        name: "histories",
        about: "lists the countries that were played",
        keys: "initial, latest, stored, nation (its number or null), human, names and strings (lists: each name and \
               its number); name_bytes (a list: hexadecimal or null) if one is no UTF-8",
        columns: &["initial", "latest", "stored", "nation", "human", "names", "strings", "name_bytes"],
        ..PLAIN
    },
    Command {
        name: "start",
        about: "says as which country the campaign was started",
        keys: "start (a tag or null)",
        columns: &["start"],
        ..PLAIN
    },
    Command {
        name: "page",
        arguments: &["[TAG..]"],
        options: &["--strict", "--json", "--csv"],
        about: "prints the page for the nations stored under these tags; without one, `selected 0`",
        keys: "selected, in the first; then tag, initial, latest, entries, state (living or annexed), or tag and \
               state (absent)",
        columns: &["tag", "initial", "latest", "entries", "state"],
        ..PLAIN
    },
    Command {
        name: "timeline",
        arguments: &["[TAG..]"],
        options: &["--from", "--to", "--changed-only", "--part", "--strict"],
        about: "draws the lives of all nations, or of those stored under these tags, as a picture, in SVG",
        ..PLAIN
    },
    Command {
        name: "completions",
        files: Files::None,
        arguments: &["SHELL"],
        options: &[],
        about: "prints what makes bash, zsh or fish complete this command",
        ..PLAIN
    },
    Command {
        name: "man",
        files: Files::None,
        options: &[],
        about: "prints the manual page, for `man -l -`",
        ..PLAIN
    },
];

const RESOLVED: &[&str] = &["--at", "--strict", "--json", "--csv"];

const DESCRIBED: &str = "section, row, offset, of (the row that owns it, if one does), and by section\n\
    head: version, ironman, multiplayer, start, current, countries, provinces, previous_tags, switches, \
    owner_events, strings, wars, war_events, ledger_names, ledger_points\n\
    country: tag, human, was_player, has_switched_nation, num_of_cities, previous_tags, switches\n\
    previous tag: tag\n\
    switch: date, from\n\
    province: id, owner, events\n\
    owner event: date, tag\n\
    war: events\n\
    war event: date, kind, tag\n\
    ledger name: tag, points\n\
    ledger point: year, value\n\
    string: text; text_bytes (hexadecimal) if it is no UTF-8\n\
    of a refused record first, for each offence: refused, words, advice, place, section, row, offset, found, \
    row_offset, bytes (of the row, hexadecimal); then more_offences, if there are more\n\
    of what looks like something else before all: sight, words";

impl Command {
    /// The command of this name.
    pub fn named(name: &str) -> Option<&'static Command> {
        COMMANDS.iter().find(|command| command.name == name)
    }

    /// Whether any number of arguments is right.
    pub fn any_number(&self) -> bool {
        self.arguments.iter().any(|argument| argument.ends_with("..]"))
    }

    /// Whether it takes this option.
    pub fn takes(&self, option: &str) -> bool {
        option == "--help" || self.options.contains(&option)
    }

    /// Its options, each with what it does.
    pub fn choices(&self) -> impl Iterator<Item = &'static Choice> + '_ {
        OPTIONS.iter().filter(|choice| self.takes(choice.name))
    }

    /// How it is called.
    pub fn usage(&self) -> String {
        let mut usage = self.name.to_string();
        usage.push_str(match self.files {
            Files::None => "",
            Files::One => " FILE",
            Files::Several => " FILE..",
        });
        for argument in self.arguments {
            let _ = write!(usage, " {argument}");
        }
        // Those for programs are those of nearly all commands.
        for choice in
            self.choices().filter(|choice| !["--json", "--csv", "--help"].contains(&choice.name))
        {
            let value = choice.value.map_or_else(String::new, |value| format!(" {value}"));
            let _ = write!(usage, " [{}{value}]", choice.name);
        }
        usage
    }
}
