//! The command `chronicle`, run.

mod answers;
mod described;
mod files;
mod names;
mod objects;
mod pages;
mod picture;
mod pipes;
mod refusals;
mod shells;
mod sights;
mod tables;
mod tags;
mod usage;

use std::ffi::OsStr;
use std::fs;
use std::path::{Path, PathBuf};
use std::process::{Command, Output};

use chronicle_trial::program::Folder;

/// The commands that answer of a file.
const ANSWERS: [&str; 16] = [
    "check",
    "describe",
    "owners",
    "on",
    "holders",
    "nations",
    "living",
    "resolve",
    "initial",
    "wars",
    "ledger",
    "players",
    "histories",
    "start",
    "page",
    "timeline",
];

/// What a run printed, and how it ended.
#[derive(Debug, PartialEq, Eq)]
struct Ran {
    status: i32,
    out: String,
    err: String,
}

fn command() -> Command {
    Command::new(env!("CARGO_BIN_EXE_chronicle"))
}

fn ended(output: Output) -> Ran {
    let text = |bytes: Vec<u8>| String::from_utf8(bytes).expect("it prints text");
    Ran {
        status: output.status.code().expect("it ends by itself"),
        out: text(output.stdout),
        err: text(output.stderr),
    }
}

fn run(arguments: &[impl AsRef<OsStr>]) -> Ran {
    ended(command().args(arguments).output().expect("it starts"))
}

/// What a line of the shell prints at a terminal; nothing where there is no `script` to be one.
#[cfg(target_os = "linux")]
fn at_terminal(line: &str) -> Option<String> {
    let mut script = Command::new("script");
    let Ok(output) = script.args(["-qec", line, "/dev/null"]).output() else {
        eprintln!("script is not at hand: NOT run at a terminal: {line}");
        return None;
    };
    Some(String::from_utf8(output.stdout).expect("it is text"))
}

fn sample(name: &str) -> PathBuf {
    Path::new(env!("CARGO_MANIFEST_DIR")).join("../../samples").join(name)
}

/// Runs a command about a sample.
fn about(sample_name: &str, command_name: &str, rest: &[&str]) -> Ran {
    let file = sample(sample_name);
    let mut arguments = vec![OsStr::new(command_name), file.as_os_str()];
    arguments.extend(rest.iter().map(OsStr::new));
    run(&arguments)
}

/// What a run prints that ends well and has nothing to complain about.
#[track_caller]
fn told(ran: Ran) -> String {
    assert_eq!((ran.status, ran.err.as_str()), (0, ""), "{ran:?}");
    ran.out
}

/// What a run that ends well says beside its answer, and the answer.
#[track_caller]
fn remarked(ran: Ran) -> (String, String) {
    assert_eq!(ran.status, 0, "{ran:?}");
    (ran.out, ran.err)
}

/// A run without an answer that ends well, and what it remarks.
#[track_caller]
fn only_remarked(ran: Ran, remark: &str) {
    assert_eq!(remarked(ran), (String::new(), format!("chronicle: {remark}\n")));
}

/// A file in a folder of its own, which vanishes with this.
struct Written {
    path: PathBuf,
    folder: Folder,
}

impl Written {
    fn text(&self) -> &str {
        self.path.to_str().expect("it is text")
    }
}

/// A file of this name with these bytes.
fn written(name: impl AsRef<OsStr>, bytes: &[u8]) -> Written {
    let folder = Folder::new();
    let path = folder.path().join(name.as_ref());
    fs::write(&path, bytes).expect("a file is written");
    Written { path, folder }
}
