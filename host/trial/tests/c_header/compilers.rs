//! The compilers at hand, and what is built by them.

use std::collections::BTreeSet;
use std::env;
use std::fmt;
use std::fs;
use std::path::{Path, PathBuf};
use std::process::{Command, Output};

const WARNINGS: [&str; 6] = ["-Wall", "-Wextra", "-Wpedantic", "-Wshadow", "-Wundef", "-Werror"];

/// The languages that the header serves, from the oldest to the newest.
const C: [&[&str]; 5] = [
    &["-x", "c", "-std=c89"],
    &["-x", "c", "-std=c99"],
    &["-x", "c", "-std=c11"],
    &["-x", "c", "-std=c17"],
    &["-x", "c", "-std=c2x"],
];

/// The same of C++.
const CPP: [&[&str]; 5] = [
    &["-x", "c++", "-std=c++98"],
    &["-x", "c++", "-std=c++11"],
    &["-x", "c++", "-std=c++14"],
    &["-x", "c++", "-std=c++17"],
    &["-x", "c++", "-std=c++20"],
];

/// A compiler with the language that it is told to read.
pub struct Compiler {
    command: String,
    language: &'static [&'static str],
}

impl fmt::Display for Compiler {
    fn fmt(&self, f: &mut fmt::Formatter<'_>) -> fmt::Result {
        write!(f, "{} {}", self.command, self.language.join(" "))
    }
}

/// C as it was in 1999.
pub fn c99() -> Compiler {
    found("CC", "cc", &["-x", "c", "-std=c99"]).unwrap_or_else(|| {
        panic!(
            "the C header was NOT tried: there is no compiler `cc`; install one, or name it by CC"
        )
    })
}

/// C++ as it was in 2011; none if it is to be left out.
pub fn cpp() -> Option<Compiler> {
    if env::var_os("CHRONICLE_NO_CXX").is_some() {
        eprintln!("the C header was NOT tried from C++: CHRONICLE_NO_CXX is set");
        return None;
    }
    let compiler = found("CXX", "c++", &["-x", "c++", "-std=c++11"]);
    assert!(
        compiler.is_some(),
        "the C header was NOT tried from C++: there is no compiler `c++`; install one, name it by CXX, \
         or set CHRONICLE_NO_CXX=1 to leave C++ out"
    );
    compiler
}

/// Every language by every compiler: the one that is named or usual, gcc's and clang's, as far as they are
/// at hand.
pub fn all() -> Vec<Compiler> {
    let no_cpp = cpp().is_none();
    let of = |variable, usual, others: [&str; 2], languages: [&'static [&'static str]; 5]| {
        let named = env::var(variable).unwrap_or_else(|_| String::from(usual));
        let commands = others.map(String::from).into_iter().chain([named]).filter(|c| is_there(c));
        let commands: BTreeSet<String> = commands.collect();
        let each = move |command: String| {
            languages.map(|language| Compiler { command: command.clone(), language })
        };
        commands.into_iter().flat_map(each).collect::<Vec<_>>()
    };
    let mut all = of("CC", "cc", ["gcc", "clang"], C);
    if !no_cpp {
        all.extend(of("CXX", "c++", ["g++", "clang++"], CPP));
    }
    all
}

fn is_there(command: &str) -> bool {
    Command::new(command).arg("--version").output().is_ok()
}

fn found(variable: &str, usual: &str, language: &'static [&'static str]) -> Option<Compiler> {
    let command = env::var(variable).unwrap_or_else(|_| usual.to_string());
    is_there(&command).then_some(Compiler { command, language })
}

impl Compiler {
    /// Compiles the sources, links libpage.a and nothing else, and says where the program is.
    pub fn program(&self, name: &str, sources: &[&str], more: &[&str]) -> PathBuf {
        let program = built(name);
        let mut command = self.compile(sources);
        // The archive is no source of the language that was named.
        command.args(["-x", "none"]).args(more).arg("-L").arg(library());
        run(command.arg("-lpage").arg("-o").arg(&program));
        program
    }

    /// Compiles and links sources with these arguments, and neither the header nor libpage.a of the
    /// repository.
    pub fn with(&self, name: &str, sources: &[PathBuf], arguments: &[&str]) -> PathBuf {
        let program = built(name);
        let mut command = Command::new(&self.command);
        command.args(self.language).args(WARNINGS).args(sources).args(["-x", "none"]);
        run(command.args(arguments).arg("-o").arg(&program));
        program
    }

    /// The sources as one object, not linked with anything.
    pub fn object(&self, name: &str, sources: &[&str]) -> PathBuf {
        let object = built(&format!("{name}.o"));
        run(self.compile(sources).args(["-r", "-nostdlib", "-o"]).arg(&object));
        object
    }

    fn compile(&self, sources: &[&str]) -> Command {
        let mut command = Command::new(&self.command);
        command.args(self.language).args(WARNINGS).arg("-I").arg(at("../../include"));
        command.args(paths(sources));
        command
    }
}

/// A path from the folder of this package.
pub fn at(path: &str) -> PathBuf {
    Path::new(env!("CARGO_MANIFEST_DIR")).join(path)
}

/// Where sources stand.
pub fn paths(sources: &[&str]) -> Vec<PathBuf> {
    sources.iter().map(|source| at("tests/c_header").join(source)).collect()
}

/// A file of these tests.
pub fn built(name: &str) -> PathBuf {
    Path::new(env!("CARGO_TARGET_TMPDIR")).join(name)
}

/// The folder of libpage.a, as the package's build finds it.
fn library() -> PathBuf {
    env::var_os("CHRONICLE_LIB_DIR").map_or_else(|| at("../../target/staticlib"), PathBuf::from)
}

/// The archive with the functions.
pub fn archive() -> PathBuf {
    library().join("libpage.a")
}

/// The text of sources, one behind the other.
pub fn sources(names: &[&str]) -> String {
    let text = |name: &&str| fs::read_to_string(at("tests/c_header").join(name)).expect("a source");
    names.iter().map(text).collect()
}

/// What a command says that ends well; `what` is named where it is not at hand.
pub fn told(command: &mut Command, what: &str) -> String {
    let output = command.output().unwrap_or_else(|error| panic!("{what} is not at hand: {error}"));
    let Output { status, stdout, stderr } = output;
    let [said, complained] =
        [stdout, stderr].map(|text| String::from_utf8_lossy(&text).into_owned());
    assert!(status.success(), "{command:?}: {status}\n{said}{complained}");
    said
}

/// What a command says that ends well.
pub fn run(command: &mut Command) -> String {
    told(command, "a program")
}
