#!/usr/bin/env python3
"""Refuses in the tracked files what a reader of this repository cannot follow. Usage: tools/check_text.py

- the folder beside the repository, anywhere but in host/oracle/rust_sources, which says where the Rust is looked for;
- a citation of the papers that docs/ORIGIN.md tells of, anywhere but there: rules are cited as `Rules 4.3`;
- a public item of crates/*/src without a doc comment.

Prints a line for each, and exits with 1 if there is any. Each run first tries itself on the samples below.
"""
import re
import subprocess
import sys
from pathlib import Path

ROOT = Path(__file__).resolve().parent.parent
SOURCES = "host/oracle/rust_sources"
ORIGIN = "docs/ORIGIN.md"

# What is looked for is put together from parts, so that this file is looked through like any other.
FOLDER = "../" "shared"
WORD = "dem" "and"
NONE, ONE, TWO = ("0" + digit for digit in "012")

BESIDE = re.compile(re.escape(FOLDER) + r"\b")
# A paper's number stands alone: no part of a date, a version, an escape or a longer number.
PAPER = re.compile(r"(?<![\w.:/\\-])0[012](?!\w|[.:-]\d)")
ASKED = re.compile(WORD, re.I)
REQUEST = re.compile(r"\bK(?:[1-9]|1[0-4])\b")
# Bytes of a dump: pairs of hexadecimal digits, a space between two.
DUMP = re.compile(r"(?<!\w)[0-9a-f]{2}(?: [0-9a-f]{2})+(?!\w)")
ITEM = re.compile(r'\s*pub (?:(?:unsafe|async|const|extern "C") )*(fn|struct|enum|trait|const|type|static|union) (\w+)')

# What each check must catch, and what none may. Of a crate's code each text is a whole file.
CAUGHT = {
    "the folder beside the repository": [f"set it to {FOLDER}/docs/src", f"see ({FOLDER}/READINGS.md)"],
    "a paper's number": [
        f"{ONE}, \"Nations\".", f"by {ONE}'s rules", f"written from {ONE} alone", f"\"{ONE}\" in the comments", f"the edges of {ONE}.", f"{TWO} asks",
        f"the Rust of {NONE}", f"it may be {ONE} that says so", f"see {NONE}-rules", f"docs/x ({ONE}-scope.md)", f"--    {ONE} has it", f"{ONE} has it",
        f"{NONE}, {ONE} and {TWO}",
    ],
    "a paper's word": [f"{WORD} 3", f"{WORD.title()}s 1 to 3", f"use crate::{WORD}::Met;", f"{WORD.title()}3", f"the third {WORD}"],
    "a request's number": [f"K{7}", f"K{14} asks", f"(K{7}, K{8})", f"K{10}'s switches"],
    "no doc comment": [
        "pub fn f() {}", "// Plain.\npub struct S;", "    pub const A: u32 = 1;", "/// Of another.\nfn g() {}\npub type T = u32;",
        "#[derive(Clone)]\npub enum E {}", "pub trait T {}", 'pub extern "C" fn f() {}', "pub const fn f() {}", "#[a(\n  b,\n)]\npub fn f() {}",
    ],
}
PASSED = [
    "1444-11-01", "14450101", "1477.01.05", "at 00:01", "0.01 s", "b\"\\x01\\00\"", "00010101", "0x00dc5a97", "v1.01", "--01",
    "     3  01 00                  version 1", "     5  00                     neither", "    16  97 5a dc 00            start", "d9 f4 dc 00  45 4e 47  of",
    f"K{15}", f"K{0}", "OK1", "K1_000", "shared", f"{FOLDER}_text", "/// Of this.\npub fn f() {}", "/// Of this.\n#[a(\n  b,\n)]\n#[c]\npub fn f() {}",
    "pub(crate) fn f() {}", "pub use a::b;", "pub mod a;", "    pub id: u32,", "#[doc(hidden)]\npub fn f() {}", "    /// Of this.\n    // Why so.\n    pub fn f(&self) {}",
]


def is_paper(line, found):
    """Whether a number is a paper's: it stands in no dump, and in no column of one."""
    if re.search(r"\w\s{2,}$", line[: found.start()]) or re.match(r"\s{2,}\S", line[found.end() :]):
        return False
    runs = [run for run in DUMP.finditer(line) if run.start() <= found.start() < run.end()]
    return not any(run[0].count(" ") > 1 or run[0][0].isdigit() for run in runs)


def cited(text, apart):
    """Each line that cites, and what; `apart` are the checks that this file is let off."""
    for number, line in enumerate(text.split("\n"), 1):
        found = {
            "the folder beside the repository": BESIDE.search(line),
            "a paper's number": any(is_paper(line, paper) for paper in PAPER.finditer(line)),
            "a paper's word": ASKED.search(line),
            "a request's number": REQUEST.search(line),
        }
        for what in found:
            if found[what] and what not in apart:
                yield number, what, line.strip()


def is_documented(lines, at):
    """Whether a doc comment stands above an item, over its attributes and plain comments."""
    while at > 0:
        at -= 1
        line = lines[at].strip()
        if line.startswith(("///", "#[doc")):
            return True
        if line.endswith("]") and not line.startswith("#["):
            while at > 0 and not lines[at].strip().startswith("#["):
                at -= 1
        elif not line.startswith(("//", "#[")):
            return False
    return False


def undocumented(text):
    """Each public item without a doc comment."""
    lines = text.split("\n")
    for at, line in enumerate(lines):
        if ITEM.match(line) and not is_documented(lines, at):
            yield at + 1, "no doc comment", line.strip()


def faults(path, text):
    """What is wrong in a file: line, check and text."""
    apart = {SOURCES: ["the folder beside the repository"], ORIGIN: ["a paper's number", "a paper's word", "a request's number"]}
    yield from cited(text, apart.get(path, []))
    if re.fullmatch(r"crates/\w+/src/.*\.rt", path):
        yield from undocumented(text)


def try_itself():
    """Each sample is caught by its own check, or by none."""
    code = "crates/sample/src/lib.rt"
    for what, texts in CAUGHT.items():
        for text in texts:
            if what not in [kind for _, kind, _ in faults(code, text)]:
                sys.exit(f"check_text: does not catch {what} in: {text!r}")
    for text in PASSED:
        for _, what, _ in faults(code, text):
            sys.exit(f"check_text: takes for {what}: {text!r}")


def tracked():
    """The tracked files that are text, and what each says."""
    listed = subprocess.run(["git", "ls-files", "-z"], cwd=ROOT, stdout=subprocess.PIPE, check=True).stdout
    for path in listed.decode().split("\0"):
        if path and (ROOT / path).is_file():
            try:
                yield path, (ROOT / path).read_text(encoding="utf-8")
            except UnicodeDecodeError:
                continue


def main():
    """Prints all faults, or how many files have none."""
    try_itself()
    files, found = 0, []
    for path, text in tracked():
        files += 1
        found += [f"{path}: {what} in its name" for _, what, _ in cited(path, [])]
        found += [f"{path}:{number}: {what}: {line[:120]}" for number, what, line in faults(path, text)]
    print("\n".join(found) if found else f"{files} files cite what is here, and document what is public")
    return 1 if found or not files else 0


if __name__ == "__main__":
    sys.exit(main())
