//! The command line.

use std::ffi::{OsStr, OsString};

use chronicle::CountryTag;

use crate::commands::{Choice, Command, Files, COMMANDS, OPTIONS};
use crate::failure::Failure;
use crate::near::{meant, near};
use crate::terminal::shown;

/// What to do.
#[derive(Debug)]
pub enum Task {
    Version,
    /// About all commands, or about one.
    Help(Option<&'static Command>),
    Answer(Question),
}

/// A command, with what stands behind.
#[derive(Debug)]
pub struct Question {
    pub command: &'static Command,
    /// `-` is standard input.
    pub files: Vec<OsString>,
    /// Tags and dates, as many as the command takes.
    pub rest: Vec<String>,
    options: Options,
}

/// The options that are given, by name; of one that is given twice the later value counts.
type Options = Vec<(&'static str, Option<String>)>;

impl Question {
    /// Whether an option is given.
    pub fn has(&self, option: &str) -> bool {
        self.options.iter().any(|(name, _)| *name == option)
    }

    /// The value of an option that is given.
    pub fn value(&self, option: &str) -> Option<&str> {
        let given = self.options.iter().rev().find(|(name, _)| *name == option);
        given.and_then(|(_, value)| value.as_deref())
    }

    /// The number that an option is given, at least 1.
    pub fn number(&self, option: &str) -> Result<Option<usize>, Failure> {
        let Some(value) = self.value(option) else {
            return Ok(None);
        };
        let number = value.parse().ok().filter(|&number: &usize| number > 0);
        let told = || {
            format!(
                "behind `{option}` stands a number from 1 on, and `{}` is none",
                shown(value.as_bytes())
            )
        };
        number.map(Some).ok_or_else(|| Failure::Usage(told()))
    }

    /// The file, of a command that takes one.
    pub fn file(&self) -> &OsStr {
        self.files.first().map_or(OsStr::new("-"), OsString::as_os_str)
    }
}

/// Reads the arguments behind the program's name.
pub fn read(mut arguments: impl Iterator<Item = OsString>) -> Result<Task, Failure> {
    let (mut words, mut options, mut only_words) = (Vec::new(), Options::new(), false);
    while let Some(argument) = arguments.next() {
        match argument.to_str() {
            _ if only_words => words.push(argument),
            Some("--") => only_words = true,
            Some(word) if is_option(word) => options.push(option(word, &mut arguments)?),
            _ => words.push(argument),
        }
    }
    task(words, options)
}

/// Some tags, such as `---`, begin like an option, and no option is as short as a tag.
fn is_option(word: &str) -> bool {
    word.starts_with('-') && word != "-" && word.parse::<CountryTag>().is_err()
}

/// An option with its value, which stands behind `=`, or in the argument behind.
fn option(
    word: &str,
    behind: &mut impl Iterator<Item = OsString>,
) -> Result<(&'static str, Option<String>), Failure> {
    let (name, given) =
        word.split_once('=').map_or((word, None), |(name, value)| (name, Some(value)));
    let name = match name {
        "-h" => "--help",
        "-V" => "--version",
        name => name,
    };
    let Some(Choice { name, value, .. }) = OPTIONS.iter().find(|choice| choice.name == name) else {
        let meant = meant(&near(name, OPTIONS.iter().map(|choice| choice.name)));
        return Err(Failure::Usage(format!(
            "there is no option {}{meant}",
            shown(name.as_bytes())
        )));
    };
    match (value, given) {
        (None, None) => Ok((name, None)),
        (None, Some(_)) => Err(Failure::Usage(format!("{name} takes no value"))),
        (Some(_), Some(given)) => Ok((name, Some(given.to_string()))),
        (Some(value), None) => match behind.next() {
            Some(given) => Ok((name, Some(given.to_string_lossy().into_owned()))),
            None => {
                Err(Failure::Usage(format!("behind `{name}` stands a {value}, and it is missing")))
            }
        },
    }
}

fn task(words: Vec<OsString>, options: Options) -> Result<Task, Failure> {
    let has = |option: &str| options.iter().any(|(name, _)| *name == option);
    let mut words = words.into_iter();
    match words.next() {
        _ if has("--version") => Ok(Task::Version),
        None if has("--help") => Ok(Task::Help(None)),
        None => Err(Failure::Usage("a command is missing".to_string())),
        Some(first) if first == "help" => {
            words.next().map_or(Ok(Task::Help(None)), |name| Ok(Task::Help(Some(named(&name)?))))
        }
        Some(first) => {
            let command = named(&first)?;
            if has("--help") {
                return Ok(Task::Help(Some(command)));
            }
            question(command, words.collect(), options).map(Task::Answer)
        }
    }
}

fn named(name: &OsStr) -> Result<&'static Command, Failure> {
    let text = name.to_str().unwrap_or_default();
    Command::named(text).ok_or_else(|| {
        let meant = meant(&near(text, COMMANDS.iter().map(|command| command.name)));
        Failure::Usage(format!("there is no command {}{meant}", shown(name.as_encoded_bytes())))
    })
}

fn question(
    command: &'static Command,
    mut words: Vec<OsString>,
    options: Options,
) -> Result<Question, Failure> {
    let usage = || format!("usage: chronicle {}", command.usage());
    if let Some((name, _)) = options.iter().find(|(name, _)| !command.takes(name)) {
        return Err(Failure::Usage(format!("{} takes no {name}; {}", command.name, usage())));
    }
    let files = match command.files {
        Files::None => 0,
        Files::One => 1,
        Files::Several => words.len().max(1),
    };
    if words.len() < files {
        return Err(Failure::Usage(usage()));
    }
    let rest = words.split_off(files);
    // What is no text is no tag and no date either, and is refused as such.
    let rest: Vec<String> = rest.iter().map(|word| word.to_string_lossy().into_owned()).collect();
    if rest.len() != command.arguments.len() && !command.any_number() {
        return Err(Failure::Usage(usage()));
    }
    Ok(Question { command, files: words, rest, options })
}
