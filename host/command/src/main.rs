//! `chronicle` tells the chronicle of a packed record, to people and to programs.

mod answers;
mod arguments;
mod closed;
mod commands;
mod describe;
mod failure;
mod input;
mod near;
mod output;
mod progress;
mod rows;
mod terminal;
mod timeline;

use std::env;
use std::io::{self, BufWriter};
use std::process::ExitCode;

use arguments::{Question, Task};
use commands::{completions, help, manual};
use failure::Failure;
use output::{Form, Output};

fn main() -> ExitCode {
    let to = &mut BufWriter::new(io::stdout().lock());
    let mut out = Output { form: Form::Text, to, progress: None };
    let ended = run(&mut out).and_then(|()| Ok(out.to.flush()?));
    match ended {
        Ok(()) => ExitCode::SUCCESS,
        Err(failure) => failure.told(&mut out),
    }
}

/// Does what the arguments ask for.
fn run(out: &mut Output<'_>) -> Result<(), Failure> {
    let task = arguments::read(env::args_os().skip(1))?;
    if closed::from_the_start() {
        return Err(Failure::Unwritten(io::Error::other("standard output is closed")));
    }
    match task {
        Task::Version => Ok(writeln!(out.to, "chronicle {}", chronicle::VERSION)?),
        Task::Help(None) => Ok(write!(out.to, "{}", help::overview())?),
        Task::Help(Some(command)) => Ok(write!(out.to, "{}", help::about(command))?),
        Task::Answer(question) => asked(&question, out),
    }
}

/// What is about no file is answered by itself.
fn asked(question: &Question, out: &mut Output<'_>) -> Result<(), Failure> {
    match question.command.name {
        "man" => Ok(write!(out.to, "{}", manual::page())?),
        "completions" => {
            let shell = question.rest.first().map_or("", String::as_str);
            let known = || format!("completions are for {}", completions::SHELLS.join(", "));
            let text = completions::of(shell).ok_or_else(|| Failure::Usage(known()))?;
            Ok(write!(out.to, "{text}")?)
        }
        _ => {
            out.form = form(question)?;
            answers::answer(question, out)
        }
    }
}

fn form(question: &Question) -> Result<Form, Failure> {
    match (question.has("--json"), question.has("--csv")) {
        (true, true) => Err(Failure::Usage("rows are told by --json or by --csv".to_string())),
        (true, false) => Ok(Form::Json),
        (false, true) => Ok(Form::Csv(question.command.columns)),
        (false, false) => Ok(Form::Text),
    }
}
