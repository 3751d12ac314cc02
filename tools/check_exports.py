#!/usr/bin/env python3
"""Holds what C calls to what is promised: each function that crates/page_c exports has, word for word, the parameters and the promise that crates/page has,
and the functions exported are those of include/chronicle.h. No crate stands above page_c, so that no proof would miss a promise taken off there.

    python3 tools/check_exports.py
"""
import pathlib
import re
import sys

TOP = pathlib.Path(__file__).resolve().parent.parent


def functions(text):
    """Parameters and promise of each public function, by its name, in one spacing."""
    form = re.compile(r'^pub (?:extern "C" )?fn (\w+)(\(.*?)\n\{', re.M | re.S)
    return {name: " ".join(rest.split()).replace(", )", ")").replace("( ", "(") for name, rest in form.findall(text)}


def declared(header):
    """The functions of the library that the header declares."""
    return set(re.findall(r"^int64_t (\w+)\(", header, re.M))


def wrong(exported, inner, header):
    """What differs, a line each."""
    for name in sorted(exported.keys() | header):
        below = name.removeprefix("chronicle_")
        if name not in exported:
            yield f"{name}: declared, and not exported"
        elif name not in header:
            yield f"{name}: exported, and not declared"
        elif "ensures" not in exported[name]:
            yield f"{name}: exported without a promise"
        elif exported[name] != inner.get(below):
            yield f"{name}: its promise or its parameters differ from those of page::{below}"


def main():
    read = lambda path: (TOP / path).read_text(encoding="utf-8")
    exported = functions(read("crates/page_c/src/lib.rt"))
    inner = {}
    for path in sorted((TOP / "crates/page/src").glob("*.rt")):
        inner.update(functions(path.read_text(encoding="utf-8")))
    header = declared(read("include/chronicle.h"))
    loosened = dict(exported, check=exported["check"].split(" ensures")[0])
    assert exported and list(wrong(loosened, inner, header)), "a promise taken off would pass"
    lines = list(wrong(exported, inner, header))
    print("\n".join(lines) or f"{len(exported)} exported functions promise what page promises")
    return 1 if lines else 0


sys.exit(main())
