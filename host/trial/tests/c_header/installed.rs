//! `make` and `make install`: what a C program finds by pkg-config, and the example for a file of any length.

use std::collections::BTreeSet;
use std::fs;
use std::path::{Path, PathBuf};
use std::process::{Command, Stdio};

use crate::compilers::{archive, at, built, c99, cpp, paths, run, told};
use crate::{declared, stacks, symbols, CASES, SAMPLES};

/// What `chronicle nations` tells of samples/isles.atl, with dates as words.
const ISLES: &str = "ARA, now ARA\n  15160123 is annexed\n";

/// A folder into which everything was installed, under /usr.
fn installed(name: &str) -> PathBuf {
    let folder = built(name);
    let _ = fs::remove_dir_all(&folder);
    let mut make = Command::new("make");
    make.arg("-C").arg(at("../..")).args(["--no-print-directory", "install", "PREFIX=/usr"]);
    make.arg(format!("ARCHIVE={}", archive().canonicalize().expect("the archive").display()));
    make.arg(format!("BUILD={}", built(&format!("{name}_build")).display()));
    make.arg(format!("DESTDIR={}", folder.display()));
    // The tests may run below another make, or below cargo's own jobs.
    told(make.env_remove("MAKEFLAGS").env_remove("MAKELEVEL"), "`make`");
    folder
}

/// What pkg-config answers about an installed folder, as if that were the root.
fn pkg_config(folder: &Path, arguments: &[&str]) -> Vec<String> {
    let mut command = Command::new("pkg-config");
    command.args(arguments).arg("chronicle").env("PKG_CONFIG_SYSROOT_DIR", folder);
    command.env("PKG_CONFIG_LIBDIR", folder.join("usr/lib/pkgconfig"));
    let told = told(&mut command, "`pkg-config`");
    told.split_whitespace().map(String::from).collect()
}

#[test]
fn what_is_installed() {
    let folder = installed("installed");
    let library = folder.join("usr/lib");
    let names = |folder: PathBuf| {
        let entries = fs::read_dir(folder).expect("a folder").map(|entry| entry.expect("an entry"));
        entries.map(|e| e.file_name().to_string_lossy().into_owned()).collect::<BTreeSet<_>>()
    };
    let version = chronicle::VERSION;
    let whole = format!("libchronicle.so.{version}");
    let files = ["libchronicle.a", "libchronicle.so", "libchronicle.so.0", &whole, "pkgconfig"];
    assert_eq!(names(library.clone()), files.map(String::from).into());
    assert_eq!(names(folder.join("usr/include")), ["chronicle.h".to_string()].into());
    let shared = library.join("libchronicle.so").canonicalize().expect("the links lead to it");
    assert_eq!(shared.file_name().expect("a name").to_string_lossy(), whole);
    assert_eq!(pkg_config(&folder, &["--modversion"]), [version]);
}

#[test]
fn the_shared_library_exports_what_the_header_declares_and_no_more() {
    let shared = installed("exported").join("usr/lib/libchronicle.so");
    let shared = shared.to_str().expect("a path in UTF-8");
    assert_eq!(symbols(&["-D", "--defined-only", shared]), declared());
    let said = told(Command::new("readelf").args(["-dW", shared]), "`readelf` of the binutils");
    assert!(said.contains("soname: [libchronicle.so.0]"), "{said}");
    assert!(!said.contains("TEXTREL"), "the code is not changed when it is loaded: {said}");
}

/// `make uninstall` leaves no file behind.
#[test]
fn uninstalled() {
    let folder = installed("uninstalled");
    let mut make = Command::new("make");
    make.arg("-C").arg(at("../..")).args(["--no-print-directory", "uninstall", "PREFIX=/usr"]);
    make.arg(format!("DESTDIR={}", folder.display()));
    told(make.env_remove("MAKEFLAGS").env_remove("MAKELEVEL"), "`make`");
    let files = run(Command::new("find").arg(&folder).args(["-not", "-type", "d"]));
    assert_eq!(files, "");
}

/// samples/nations.c by what pkg-config says, shared and static, with the record in a file and on standard input.
#[test]
fn the_example_by_pkg_config() {
    let folder = installed("example_install");
    let flags = pkg_config(&folder, &["--cflags", "--libs"]);
    let flags: Vec<&str> = flags.iter().map(String::as_str).collect();
    let example = [at("../../samples/nations.c")];
    let shared = c99().with("nations_shared", &example, &flags);
    let fixed = c99().with("nations_static", &example, &[&["-static"], &flags[..]].concat());
    let mut programs = vec![shared, fixed];
    programs.extend(cpp().map(|compiler| compiler.with("nations_cpp", &example, &flags)));
    for program in programs {
        let mut command = Command::new(&program);
        command.env("LD_LIBRARY_PATH", folder.join("usr/lib"));
        let said = run(command.arg(SAMPLES[1]));
        assert!(said.starts_with(ISLES), "{said}");
        assert_eq!(said.lines().filter(|line| line.contains(", now ")).count(), 11, "{said}");
        assert_eq!(said.lines().filter(|line| line.starts_with("  ")).count(), 11, "{said}");
    }
}

/// Every case and every stack, with the shared library in place of the archive.
#[test]
fn the_cases_by_the_shared_library() {
    let folder = installed("cases_install");
    let flags = [&pkg_config(&folder, &["--cflags", "--libs"])[..], &["-pthread".into()]].concat();
    let flags: Vec<&str> = flags.iter().map(String::as_str).collect();
    let library = folder.join("usr/lib");
    let cases = c99().with("cases_shared", &paths(&CASES), &flags);
    let said = run(Command::new(cases).args(SAMPLES).env("LD_LIBRARY_PATH", &library));
    assert_eq!(said, "0 differences\n");
    let calls = c99().with("stacks_shared", &paths(&stacks::SOURCES), &flags);
    let said = run(stacks::given(calls, "stacks_shared", 0).env("LD_LIBRARY_PATH", &library));
    assert_eq!(said.lines().count(), declared().len(), "{said}");
}

/// A record of more bytes than the memory that the example begins with.
#[test]
fn the_example_takes_a_file_of_any_length() {
    let record = chronicle_trial::pack::pack(&chronicle_trial::generate::at_limits());
    assert!(record.len() > 1 << 20, "it has {} bytes", record.len());
    let path = built("long.atl");
    fs::write(&path, &record).expect("it is written");
    let example = at("../../samples/nations.c");
    let program = c99().program("nations", &[example.to_str().expect("a path in UTF-8")], &[]);
    let said = run(Command::new(&program).stdin(Stdio::from(fs::File::open(&path).expect("it"))));
    let chronicle = chronicle::Record::open(record).and_then(chronicle::Record::into_chronicle);
    let nations = chronicle.expect("it is accepted").nations().len();
    assert_eq!(said.lines().filter(|line| line.contains(", now ")).count(), nations);

    fs::write(&path, [0; 100]).expect("it is written");
    let refused = Command::new(&program).arg(&path).output().expect("it runs");
    assert_eq!(refused.status.code(), Some(1));
    let told = String::from_utf8_lossy(&refused.stderr).into_owned();
    assert_eq!(told, "refused 1: these bytes do not begin as a packed campaign does\n");
}
