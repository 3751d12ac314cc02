//! Completions and the manual page.

use std::process::Command;

use super::{ended, run, told, written, ANSWERS};

const OPTIONS: [&str; 11] =
    ["at", "rows", "most", "from", "to", "changed-only", "part", "strict", "json", "csv", "help"];

fn commands() -> impl Iterator<Item = &'static str> {
    ANSWERS.into_iter().chain(["completions", "man"])
}

fn completions(shell: &str) -> String {
    told(run(&["completions", shell]))
}

/// What bash offers for these words, of which the last is being written.
fn offered(words: &[&str]) -> Vec<String> {
    let script = format!(
        "{}\nCOMP_WORDS=({})\nCOMP_CWORD={}\n_chronicle\nprintf '%s\\n' \"${{COMPREPLY[@]}}\"\n",
        completions("bash"),
        words.iter().map(|word| format!("'{word}'")).collect::<Vec<_>>().join(" "),
        words.len() - 1
    );
    let output = Command::new("bash").args(["-c", &script]).output().expect("bash is there");
    let mut offered: Vec<String> = told(ended(output)).lines().map(str::to_string).collect();
    offered.sort();
    offered
}

#[test]
fn bash_completes() {
    assert_eq!(offered(&["chronicle", "na"]), ["nations"]);
    assert_eq!(offered(&["chronicle", ""]).len(), commands().count() + 2);
    assert_eq!(
        offered(&["chronicle", "resolve", "--"]),
        ["--at", "--csv", "--help", "--json", "--strict"]
    );
    assert_eq!(offered(&["chronicle", "timeline", "a", "--f"]), ["--from"]);
    assert_eq!(offered(&["chronicle", "completions", ""]), ["bash", "fish", "zsh"]);
    assert_eq!(offered(&["chronicle", "help", "own"]), ["owners"]);
    let file = written("a file.atl", b"");
    let prefix = &file.text()[..file.text().len() - 5];
    assert_eq!(offered(&["chronicle", "check", prefix]), [file.text()]);
}

/// Every command and option stands in each, and a shell that is at hand finds no fault.
#[test]
fn every_shell_knows_every_command() {
    for shell in ["bash", "zsh", "fish"] {
        let text = completions(shell);
        assert!(commands().all(|command| text.contains(command)), "{shell} {text}");
        assert!(OPTIONS.iter().all(|option| text.contains(option)), "{shell} {text}");
        let file = written("completions", text.as_bytes());
        if let Ok(output) = Command::new(shell).args(["-n", file.text()]).output() {
            assert!(
                output.status.success(),
                "{shell}: {}",
                String::from_utf8_lossy(&output.stderr)
            );
        }
    }
}

/// fish, where it is at hand, offers what bash does.
#[test]
fn fish_completes() {
    let line = format!(
        "{}\ncomplete -C 'chronicle na'\ncomplete -C 'chronicle resolve x --st'",
        completions("fish")
    );
    if let Ok(output) = Command::new("fish").args(["-N", "-c", &line]).output() {
        let out = String::from_utf8_lossy(&output.stdout);
        let words: Vec<&str> = out.lines().filter_map(|line| line.split('\t').next()).collect();
        assert_eq!(words, ["nations", "--strict"], "{output:?}");
    }
}

#[test]
fn the_manual_page() {
    let page = told(run(&["man"]));
    assert!(page.starts_with(".TH CHRONICLE 1 "), "{page}");
    for heading in
        ["NAME", "SYNOPSIS", "DESCRIPTION", "COMMANDS", "OPTIONS", "EXIT STATUS", "EXAMPLES"]
    {
        assert!(page.contains(&format!("\n.SH {heading}\n")), "{heading}");
    }
    for command in commands() {
        assert!(page.contains(&format!("\n.TP\n.B {command}")), "{command}");
    }
    for option in OPTIONS {
        assert!(
            page.contains(&format!("\\fB\\-\\-{}\\fR", option.replace('-', "\\-"))),
            "{option}"
        );
    }
    // A line that begins so is a request, and all others are text.
    let requests = page.lines().filter(|line| line.starts_with(['.', '\'']));
    for request in requests {
        assert!(
            [".TH", ".SH", ".TP", ".B", ".I"]
                .contains(&request.split(' ').next().unwrap_or_default()),
            "{request}"
        );
    }
}
