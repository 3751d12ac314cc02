//! What makes a shell complete the command.

use std::fmt::Write;

use super::{Choice, Command, Files, COMMANDS};

/// The shells that are known.
pub const SHELLS: [&str; 3] = ["bash", "zsh", "fish"];

/// What a shell of this name reads, if it is known.
pub fn of(shell: &str) -> Option<String> {
    match shell {
        "bash" => Some(bash()),
        "zsh" => Some(zsh()),
        "fish" => Some(fish()),
        _ => None,
    }
}

fn names() -> String {
    COMMANDS.map(|command| command.name).join(" ")
}

/// A line for each command.
fn lines(line: impl Fn(&Command) -> String) -> String {
    COMMANDS.iter().map(|command| line(command) + "\n").collect()
}

/// What bash reads: NAMES and CASES are filled in.
const BASH: &str = r#"# Completions of chronicle for bash: eval "$(chronicle completions bash)"
_chronicle() {
    local word=${COMP_WORDS[COMP_CWORD]} words= offered
    if [ "$COMP_CWORD" -eq 1 ]; then
        words="NAMES --help --version"
    else
        case ${COMP_WORDS[1]} in
CASES        help) words="NAMES" ;;
        esac
    fi
    case $COMP_CWORD:${COMP_WORDS[1]}:$word in
    1:* | *:help:* | *:completions:* | *:-?*) offered=$(compgen -W "$words" -- "$word") ;;
    *) offered=$(compgen -f -- "$word") ;;
    esac
    COMPREPLY=()
    while IFS= read -r word; do
        [ -z "$word" ] || COMPREPLY+=("$word")
    done <<< "$offered"
}
complete -o filenames -F _chronicle chronicle
"#;

fn bash() -> String {
    let words = |command: &Command| match command.name {
        "completions" => SHELLS.join(" "),
        _ => command.choices().map(|choice| choice.name).collect::<Vec<&str>>().join(" "),
    };
    let cases =
        lines(|command| format!("        {}) words=\"{}\" ;;", command.name, words(command)));
    BASH.replace("CASES", &cases).replace("NAMES", &names())
}

/// What zsh reads: COMMANDS and CASES are filled in. From a folder of functions it is called; else it is told of.
const ZSH: &str = r#"#compdef chronicle
# Completions of chronicle for zsh: eval "$(chronicle completions zsh)"
_chronicle() {
    local -a commands
    commands=(
COMMANDS    )
    if (( CURRENT == 2 )); then
        _describe command commands
        return
    fi
    local command=${words[2]}
    shift words
    (( CURRENT-- ))
    case $command in
    help) _describe command commands ;;
CASES    esac
}
if [ "$funcstack[1]" = _chronicle ]; then
    _chronicle "$@"
else
    compdef _chronicle chronicle
fi
"#;

fn zsh() -> String {
    let about = |command: &Command| command.about.replace(':', "\\:");
    let commands = lines(|command| {
        format!("        {}", zsh_quoted(&format!("{}:{}", command.name, about(command))))
    });
    let cases =
        lines(|command| format!("    {}) _arguments {} ;;", command.name, zsh_arguments(command)));
    ZSH.replace("CASES", &cases).replace("COMMANDS", &commands)
}

/// In single quotes, as zsh has them.
fn zsh_quoted(text: &str) -> String {
    format!("'{}'", text.replace('\'', "'\\''"))
}

/// What `_arguments` takes for a command: its options, and what stands behind it.
fn zsh_arguments(command: &Command) -> String {
    let option = |choice: &Choice| match choice.value {
        Some(value) => zsh_quoted(&format!("{}=[{}]:{value}:", choice.name, choice.about)),
        None => zsh_quoted(&format!("{}[{}]", choice.name, choice.about)),
    };
    let mut arguments: Vec<String> = command.choices().map(option).collect();
    arguments.push(match (command.name, command.files) {
        ("completions", _) => format!("'1:shell:({})'", SHELLS.join(" ")),
        (_, Files::None) => "'*: :'".to_string(),
        (_, Files::One) => "'1:file:_files' '*:argument:'".to_string(),
        (_, Files::Several) => "'*:file:_files'".to_string(),
    });
    arguments.join(" ")
}

/// In single quotes, as fish has them.
fn fish_quoted(text: &str) -> String {
    format!("'{}'", text.replace('\\', "\\\\").replace('\'', "\\'"))
}

fn fish() -> String {
    let mut text =
        String::from("# Completions of chronicle for fish: chronicle completions fish | source\n");
    let mut complete = |condition: &str, rest: &str| {
        let _ = writeln!(text, "complete -c chronicle -n '{condition}' {rest}");
    };
    for command in &COMMANDS {
        let about = fish_quoted(command.about);
        complete("__fish_use_subcommand", &format!("-f -a {} -d {about}", command.name));
        for choice in command.choices() {
            let value = if choice.value.is_some() { " -x" } else { "" };
            let (name, about) = (choice.name.trim_start_matches('-'), fish_quoted(choice.about));
            let seen = format!("__fish_seen_subcommand_from {}", command.name);
            complete(&seen, &format!("-l {name}{value} -d {about}"));
        }
    }
    complete("__fish_seen_subcommand_from completions", &format!("-f -a '{}'", SHELLS.join(" ")));
    complete("__fish_seen_subcommand_from help", &format!("-f -a '{}'", names()));
    text
}
