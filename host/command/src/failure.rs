//! How a run ends that gives no answer.

use std::ffi::{OsStr, OsString};
use std::io::{self, Write};
use std::process::ExitCode;

use chronicle::Refusal;

use crate::output::{refused as refused_object, Form, Output};
use crate::rows::Object;
use crate::terminal::shown_path;

/// Why there is no answer.
#[derive(Debug)]
pub enum Failure {
    /// The arguments make no sense.
    Usage(String),
    /// The file cannot be read.
    Unreadable(OsString, io::Error),
    /// The record or the question is refused, with more about it where there is more.
    Refused { file: OsString, refusal: Refusal, more: Option<String> },
    /// All that is to be said has been said, and the run ends with this status.
    Told(u8),
    /// The answer cannot be written.
    Unwritten(io::Error),
}

/// The status that says: no answer, for the record is refused, or a tag is none that is known.
pub const REFUSED: u8 = 1;

/// The status that says: wrong usage, or a file that cannot be read or written.
pub const WRONG: u8 = 2;

impl From<io::Error> for Failure {
    fn from(error: io::Error) -> Failure {
        Failure::Unwritten(error)
    }
}

impl Failure {
    /// Says why, and gives the status to end with.
    pub fn told(self, out: &mut Output<'_>) -> ExitCode {
        out.progress = None;
        match self {
            // Who closes the pipe has read enough, and needs no words.
            Failure::Unwritten(error) if error.kind() == io::ErrorKind::BrokenPipe => {
                ExitCode::from(WRONG)
            }
            Failure::Unwritten(error) => wrong(&format!("the answer cannot be written: {error}")),
            Failure::Usage(told) => {
                wrong(&format!("{told}\nTry `chronicle --help`, or `chronicle COMMAND --help`."))
            }
            Failure::Unreadable(file, error) => wrong(&unreadable(&file, &error)),
            Failure::Refused { file, refusal, more } => {
                refused(&name(&file), refusal, more.as_deref(), out)
            }
            Failure::Told(status) => flushed(out, status),
        }
    }
}

/// Ends with a status, unless what was said cannot be written.
fn flushed(out: &mut Output<'_>, status: u8) -> ExitCode {
    match out.to.flush() {
        Err(error) => Failure::Unwritten(error).told(out),
        Ok(()) => ExitCode::from(status),
    }
}

/// The name of a file, for a message.
pub fn name(file: &OsStr) -> String {
    if file == "-" {
        return "standard input".to_string();
    }
    shown_path(file)
}

/// What is said of a file that cannot be read.
pub fn unreadable(file: &OsStr, error: &io::Error) -> String {
    format!("{}: {error}", name(file))
}

/// Objects are read where rows are; people, and who reads a table, are told beside them.
fn refused(file: &str, refusal: Refusal, more: Option<&str>, out: &mut Output<'_>) -> ExitCode {
    let status = if refusal == Refusal::BadQuestion { WRONG } else { REFUSED };
    if out.form != Form::Json {
        let more = more.map_or_else(String::new, |more| format!("\n{more}"));
        say(&format!("{file}: {refusal}{more}"));
        return flushed(out, status);
    }
    let object = refused_object(Object::new(), refusal);
    let object = match more {
        Some(more) => object.text("found", more),
        None => object,
    };
    match writeln!(out.to, "{}", object.json()) {
        Err(error) => Failure::Unwritten(error).told(out),
        Ok(()) => flushed(out, status),
    }
}

fn wrong(told: &str) -> ExitCode {
    say(&format!("chronicle: {told}"));
    ExitCode::from(WRONG)
}

/// If nobody listens, nothing is said.
fn say(told: &str) {
    let _ = writeln!(io::stderr(), "{told}");
}
