//! The program `page`, run: its record from a file or from none, its selection from anywhere, and an
//! output that fails.

use std::fs::{create_dir, write, File, OpenOptions};
use std::io::Write;
use std::path::{Path, PathBuf};
use std::process::{Command, Output, Stdio};
use std::thread::sleep;
use std::time::Duration;

use chronicle_trial::extremes::pages::{one_slot, padded, to_and_fro};
use chronicle_trial::pack::pack;
use chronicle_trial::program::{printed, remark, Folder};
use chronicle_trial::{edges, model, sample};

/// What is said of a file that cannot be read.
const UNREAD: &str = "page: campaign.atl cannot be read, and counts as empty\n";

const TWO: &str = "selected 2\nGBR ENG GBR 3 living\nFRA FRA FRA 0 living\n";

fn with(record: &[u8]) -> Folder {
    let folder = Folder::new();
    write(folder.campaign(), record).expect("the folder can be written to");
    folder
}

#[track_caller]
fn prints(output: &Output, expected: &str) {
    remarks(output, expected, "");
}

/// Prints this, and says that on standard error.
#[track_caller]
fn remarks(output: &Output, expected: &str, remark: &str) {
    assert_eq!(String::from_utf8_lossy(&output.stdout), expected);
    assert_eq!(String::from_utf8_lossy(&output.stderr), remark);
    assert!(output.status.success(), "{output:?}");
}

#[test]
fn worked_record() {
    prints(&with(sample::WORKED).run(b"GBR\nFRA\n"), TWO);
    prints(&with(sample::WORKED).run(b""), "selected 0\n");
    prints(&with(sample::WORKED).run(b"GBR"), "refused 12\n");
    prints(&with(&sample::WORKED[..102]).run(b"GBR"), "refused 3\n");
}

/// What the C function tells, for edges of a record; of so many each seventh, for each is a process.
#[test]
fn edges_of_the_record() {
    let folder = Folder::new();
    for edge in edges::all().into_iter().step_by(7) {
        write(folder.campaign(), &edge.record).expect("the folder can be written to");
        let expected = printed(model::page(&edge.record, b"GBR\nENG\n"));
        assert_eq!(folder.run(b"GBR\nENG\n").stdout, expected, "{}", edge.name);
    }
}

/// An unreadable file counts as an empty one: none, and a folder of that name.
#[test]
fn no_file() {
    let folder = Folder::new();
    remarks(&folder.run(b"GBR\n"), "refused 1\n", UNREAD);
    remarks(&folder.run(b"GBR"), "refused 1\n", UNREAD);
    remarks(&folder.run(&[b'x'; 65_537]), "refused 10\n", UNREAD);
    create_dir(folder.campaign()).expect("the folder can be written to");
    remarks(&folder.run(b"GBR\n"), "refused 1\n", UNREAD);
}

/// A selection written with carriage returns is refused, and why stands on standard error.
#[test]
fn carriage_returns() {
    let selection = b"GBR\r\nFRA\r\n";
    assert!(remark(selection).contains("carriage return"));
    remarks(&with(sample::WORKED).run(selection), "refused 12\n", remark(selection));
}

/// 5 GB that take no room on the disk: no more of them is read than is needed to refuse.
#[test]
fn a_file_of_5_gigabytes() {
    let folder = with(b"");
    let file = OpenOptions::new().write(true).open(folder.campaign()).expect("it is there");
    file.set_len(5_000_000_000).expect("the file can have holes");
    prints(&folder.run(b"GBR\n"), "refused 10\n");
}

#[test]
fn limits() {
    let folder = with(&pack(&padded(sample::worked(), 65_536)));
    prints(&folder.run(b"GBR\nFRA\n"), TWO);
    write(folder.campaign(), pack(&padded(sample::worked(), 65_537))).expect("as above");
    prints(&folder.run(b"GBR\nFRA\n"), "refused 10\n");
    write(folder.campaign(), pack(&to_and_fro(4_001))).expect("as above");
    prints(&folder.run(b"GBR\nFRA\n"), "refused 10\n");
    write(folder.campaign(), sample::WORKED).expect("as above");
    let most = "QQQ\n".repeat(16_384);
    let expected = "selected 16384\n".to_string() + &"QQQ absent\n".repeat(16_384);
    prints(&folder.run(most.as_bytes()), &expected);
    prints(&folder.run((most.clone() + "Q").as_bytes()), "refused 10\n");
    prints(&folder.run(most.repeat(40).as_bytes()), "refused 10\n");
}

/// The program has room for every page.
#[test]
fn longest_page() {
    let folder = with(&pack(&one_slot(2_500)));
    let expected = "selected 16384\n".to_string() + &"ENG ENG ENG 2500 annexed\n".repeat(16_384);
    prints(&folder.run("ENG\n".repeat(16_384).as_bytes()), &expected);
}

#[test]
fn input_in_small_pieces() {
    let folder = with(sample::WORKED);
    let mut child = folder.program().spawn().expect("the program has been built");
    let mut input = child.stdin.take().expect("a pipe");
    for byte in b"GBR\nFRA\n" {
        input.write_all(&[*byte]).expect("the program reads on");
        sleep(Duration::from_millis(5));
    }
    drop(input);
    prints(&child.wait_with_output().expect("the program ends"), TWO);
}

#[test]
fn input_from_a_file_and_from_nothing() {
    let folder = with(sample::WORKED);
    let selection = folder.path().join("selection");
    write(&selection, b"GBR\nFRA\n").expect("as above");
    let from = |input: Stdio| folder.program().stdin(input).output().expect("the program runs");
    prints(&from(File::open(&selection).expect("it is there").into()), TWO);
    prints(&from(Stdio::null()), "selected 0\n");
}

/// `sh` closes what the program would read, or gives it a folder: a selection that cannot be read is none, and
/// standard error says so.
#[test]
fn input_that_fails() {
    let folder = with(sample::WORKED);
    for command in ["exec \"$0\" <&-", "exec \"$0\" <."] {
        let output = through_shell(&folder, command);
        assert_eq!(String::from_utf8_lossy(&output.stdout), "selected 0\n", "{command}");
        let said = String::from_utf8_lossy(&output.stderr);
        assert_eq!(said, "page: the input cannot be read\n", "{command}");
    }
}

/// A read that fails behind some bytes: of the file, which then counts as empty, though the bytes before it were a whole
/// record; and of the input, whose tags up to there are read.
#[test]
fn reads_that_fail_behind_some_bytes() {
    let folder = with(sample::WORKED);
    let failing = failing_read();
    let run = |which: &str, bytes: &str| {
        let mut program = folder.program();
        program.env("LD_PRELOAD", &failing).env("READ_FAILS", which).env("READ_GIVES", bytes);
        let mut child = program.spawn().expect("the program has been built");
        child.stdin.take().expect("a pipe").write_all(b"GBR\nFRA\n").expect("a pipe has room");
        child.wait_with_output().expect("the program ends")
    };
    remarks(&run("file", "50"), "refused 1\n", UNREAD);
    remarks(&run("file", "103"), "refused 1\n", UNREAD);
    for (bytes, page) in
        [("4", "selected 1\nGBR ENG GBR 3 living\n"), ("8", TWO), ("3", "refused 12\n")]
    {
        let output = run("input", bytes);
        assert_eq!(String::from_utf8_lossy(&output.stdout), page, "{bytes} bytes");
        let said = String::from_utf8_lossy(&output.stderr);
        assert_eq!(said, "page: the input cannot be read\n", "{bytes} bytes");
    }
}

/// A `read` that fails when it is told to.
fn failing_read() -> PathBuf {
    let library = Path::new(env!("CARGO_TARGET_TMPDIR")).join("failing_read.so");
    let source = Path::new(env!("CARGO_MANIFEST_DIR")).join("tests/page_program/failing_read.c");
    let mut compile = Command::new(std::env::var("CC").unwrap_or_else(|_| "cc".to_string()));
    compile.args(["-shared", "-fPIC", "-o"]).arg(&library).arg(&source).arg("-ldl");
    let status = compile.status().expect("there is a compiler `cc`, or one named by CC");
    assert!(status.success(), "{compile:?}");
    library
}

/// Nobody can write to /dev/full, nor to a closed output: standard error says so. The status of a program is 0.
#[test]
fn output_that_fails() {
    let folder = with(sample::WORKED);
    for command in ["exec \"$0\" >/dev/full", "exec \"$0\" >&-"] {
        let output = through_shell(&folder, command);
        let said = String::from_utf8_lossy(&output.stderr);
        assert_eq!(said, "page: the output cannot be written\n", "{command}");
        assert!(output.stdout.is_empty(), "{command}: {output:?}");
    }
}

fn through_shell(folder: &Folder, command: &str) -> Output {
    let program = folder.program().get_program().to_os_string();
    let mut shell = Command::new("sh");
    shell.args(["-c", command]).arg(program).current_dir(folder.path());
    shell.stdin(Stdio::null()).output().expect("there is a shell")
}
