//! Pipes that are closed before everything is written.

use std::io::{BufRead, BufReader, Read};
use std::process::Stdio;

use chronicle_trial::extremes::nations;
use chronicle_trial::pack::pack;

use super::{command, written};

/// Reads so many lines and closes the pipe; far more than a pipe holds is left unread.
fn closed_after(lines: usize, arguments: &[&str]) {
    let file = written("large.atl", &pack(&nations(1)));
    let mut child = command()
        .args(arguments)
        .arg(&file.path)
        .stdout(Stdio::piped())
        .stderr(Stdio::piped())
        .spawn()
        .expect("it starts");
    let mut out = BufReader::new(child.stdout.take().expect("it is a pipe"));
    for _ in 0..lines {
        let mut line = String::new();
        assert!(out.read_line(&mut line).expect("there is a line") > 0);
    }
    drop(out);
    let mut said = String::new();
    let mut err = child.stderr.take().expect("it is a pipe");
    err.read_to_string(&mut said).expect("it is text");
    let status = child.wait().expect("it ends");
    assert_eq!((status.code(), said.as_str()), (Some(2), ""), "{arguments:?}");
}

/// Without a word, and with the status of an answer that could not be written.
#[test]
fn a_closed_pipe_ends_it_quietly() {
    closed_after(1, &["nations"]);
    closed_after(0, &["owners"]);
    closed_after(1, &["owners", "--json"]);
    closed_after(1, &["owners", "--csv"]);
    closed_after(2, &["describe", "--rows"]);
}

/// What is closed from the start, or full, takes no answer either.
#[cfg(target_os = "linux")]
#[test]
fn an_output_that_takes_nothing() {
    let run = |to: &str| {
        let line = format!("\"$0\" check \"$1\" {to}");
        let output = std::process::Command::new("sh")
            .args(["-c", &line, env!("CARGO_BIN_EXE_chronicle")])
            .arg(super::sample("isles.atl"))
            .output();
        super::ended(output.expect("it starts"))
    };
    for to in [">&-", ">/dev/full"] {
        let ran = run(to);
        assert_eq!(ran.status, 2, "{to} {ran:?}");
        assert!(ran.err.starts_with("chronicle: the answer cannot be written: "), "{to} {ran:?}");
    }
    // Who does not want the answer, and opens its place for reading too, has an output that takes it.
    for to in [">/dev/null", "1<>/dev/null"] {
        assert_eq!(told_nothing(run(to)), 0, "{to}");
    }
}

#[cfg(target_os = "linux")]
fn told_nothing(ran: super::Ran) -> i32 {
    assert_eq!((ran.out.as_str(), ran.err.as_str()), ("", ""), "{ran:?}");
    ran.status
}
