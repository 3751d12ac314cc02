#!/usr/bin/env python3
"""What the check of a crate costs: proves the named crates from nothing (`rt verdict`), over the crates below them, and prints a table.

usage: costs.py [--edits] CRATE..      (run it with little else on the machine)

A log of `rt ci` has no times, so it cannot tell these.
"""
import os
import resource
import subprocess
import sys
import time

TOP = os.path.join(os.path.dirname(os.path.abspath(__file__)), "..")


def run(command, folder):
    """Seconds by the clock and of the processor that a command takes. If it fails, what it printed last is printed, and that is all."""
    before, began = resource.getrusage(resource.RUSAGE_CHILDREN), time.monotonic()
    ran = subprocess.run(command, cwd=folder, stdout=subprocess.PIPE, stderr=subprocess.STDOUT, text=True)
    after, ended = resource.getrusage(resource.RUSAGE_CHILDREN), time.monotonic()
    if ran.returncode != 0:
        sys.exit(f"{' '.join(command)} failed in {folder}:\n{ran.stdout[-2000:]}")
    return ended - began, after.ru_utime + after.ru_stime - before.ru_utime - before.ru_stime


def row_of(crate, with_edits):
    """A crate's row: what its check takes, and what its edits take."""
    folder = os.path.join(TOP, "crates", crate)
    run(["rt", "check"], folder)  # the crates below are built before the clock begins
    row = "| {} | {:.0f} | {:.0f} |".format(crate, *run(["rt", "verdict"], folder))
    if with_edits:
        edits = os.path.join(folder, "must-fail")
        count = len(os.listdir(edits)) if os.path.isdir(edits) else 0
        taken = run(["rt", "must-fail", "--anew", crate], TOP) if count else (0, 0)
        row += " {} | {:.0f} | {:.0f} |".format(count, *taken)
    return row


def main(arguments):
    with_edits = "--edits" in arguments
    crates = [argument for argument in arguments if argument != "--edits"]
    unknown = [crate for crate in crates if not os.path.isdir(os.path.join(TOP, "crates", crate))]
    if not crates or unknown:
        sys.exit(f"no crate: {', '.join(unknown)}" if unknown else __doc__)
    print("| crate | its check, clock | processor |" + (" edits | all of them, clock | processor |" if with_edits else ""))
    print("|---|---|---|" + ("---|---|---|" if with_edits else ""))
    for crate in crates:
        print(row_of(crate, with_edits), flush=True)


main(sys.argv[1:])
