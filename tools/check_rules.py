#!/usr/bin/env python3
"""Checks that docs/RULES.md and the repository still speak of the same things. Usage: tools/check_rules.py

Every rule (`**4.3** ..`) ends in a quoted paragraph of three parts, with each name in backticks:

    > Defined: rules/Nations `maps_to`. Kept: nations `nation_events`. Shown: edit `first_row_of_an_initial`; case `nation_cases`.

Defined names stand in crates/CRATE/specs/PAGE.antt (or in specs/cases), or in a page of that name in another crate, for crates are
divided anew now and then; a type that the code declares may be one that the page uses. Kept names are functions and types of crates/*/src, include/ or host/. Shown names are edits
(crates/*/must-fail/NAME.edit), cases and laws (crates/*/specs and proofs), tests (host/), and programs (a crate, or a bin of host/).
Prints a line for each name that is not found and each rule without such a paragraph; exit status 1 if there is any.
"""
import re
import sys
from pathlib import Path

ROOT = Path(__file__).resolve().parent.parent
RULES = ROOT / "docs" / "RULES.md"
RULE = re.compile(r"^\*\*(\d+\.\d+)\*\*", re.M)


def texts(folder, suffix):
    """The paths below a folder with a suffix, and what each says; build folders are passed over."""
    paths = (p for p in (ROOT / folder).rglob("*" + suffix) if "target" not in p.relative_to(ROOT).parts)
    return {p: p.read_text(encoding="utf-8") for p in paths}


ANTT = texts("crates", ".antt")
CODE = {**texts("crates", ".rt"), **texts("include", ".h"), **texts("host", ".rs")}
EDITS = {p.stem for p in ROOT.glob("crates/*/must-fail/*.edit")}
PROGRAMS = {p.name for p in ROOT.glob("crates/*")} | {p.stem for p in ROOT.glob("host/**/src/bin/*")}


def said(name, files):
    """A name, or each part of a path like `Chronicle::open`, stands somewhere as a word."""
    words = [re.compile(rf"\b{re.escape(part)}\b") for part in name.split("::")]
    return all(any(word.search(text) for text in files) for word in words)


def stated(name, files):
    """A definition, a type, a field or a law of that name stands at the front of some line, or is a type of the code in use."""
    front = rf"^\s*(?:(?:abbrev|unfoldable|pub|record|data|in)\s+)*{re.escape(name)}\s*[:({{]"
    used = rf"^(?:pub )?use [\w.]+\.declared\.[\w.]+\.\{{(?:[^}}]*\W)?{re.escape(name)}\W"
    line = re.compile(f"{front}|{used}", re.M)
    return any(line.search(text) for text in files)


def pages(named):
    """What the page `rules/Nations` says: of that crate, else any page called so."""
    crate, _, page = named.partition("/")
    files = {p: t for p, t in ANTT.items() if p.stem == page and "specs" in p.parts}
    return [t for p, t in files.items() if p.relative_to(ROOT).parts[1] == crate] or list(files.values())


def shown(kind, name):
    """An edit, a case, a law, a test or a program of that name exists."""
    if kind == "edit":
        return name in EDITS
    if kind == "program":
        return name in PROGRAMS
    if kind == "test":
        return said(name, [t for p, t in CODE.items() if p.suffix == ".rs"])
    return stated(name, ANTT.values())


def faults(trace):
    """What the quoted paragraph of one rule names and the repository has not."""
    parts = re.match(r"Defined: (.*?) Kept: (.*?) Shown: (.*)", trace)
    if parts is None:
        yield "has no paragraph `> Defined: .. Kept: .. Shown: ..`"
        return
    page = kind = ""
    for place, name in re.findall(r"(\w+/\w+)|`([^`]+)`", parts[1]):
        page = place or page
        if name and not stated(name, pages(page)):
            yield f"definition {page} {name} not found"
    for name in re.findall(r"`([^`]+)`", parts[2]):
        if not said(name, CODE.values()):
            yield f"function {name} not found"
    for word, name in re.findall(r"\b(edit|case|law|test|program)s?\b|`([^`]+)`", parts[3]):
        kind = word or kind
        if name and not shown(kind, name):
            yield f"{kind} {name} not found"
    if "`" not in parts[3]:
        yield "names nothing that shows a breach"


def main():
    """Prints all faults; the number of rules if there is none."""
    _, *rules = RULE.split(RULES.read_text(encoding="utf-8"))
    found, numbers = [], rules[::2]
    for number, text in zip(numbers, rules[1::2]):
        quoted = [line[1:].strip() for line in text.split("\n") if line.startswith(">")]
        found += [f"Rules {number}: {fault}" for fault in faults(" ".join(quoted))]
    found += [f"Rules {number}: stands twice" for number in sorted(set(numbers)) if numbers.count(number) > 1]
    print("\n".join(found) if found else f"{len(numbers)} rules, each with what defines, keeps and shows it")
    return 1 if found or not numbers else 0


if __name__ == "__main__":
    sys.exit(main())
