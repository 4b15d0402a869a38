#!/usr/bin/env python3
"""Counts what names cost that a stranger chose so that hash tables with a known seed become slow.

Usage: bench/chosen.py [PROGRAM] [--count N]

PROGRAM is the built domrun, crates/domrun/out/domrun if none is given. bench/chosen.c, which the C compiler builds, gives so many names
(100,000): chosen ones, which the kit's tables would all begin to seek at one place, and others of the same length. Each kind of line runs
with both, and its instructions are counted as in bench/apart.py. The exit status is 1 if chosen names take more than twice as many.
"""
import argparse
import os
import subprocess
import sys
import tempfile

sys.dont_write_bytecode = True
from apart import PROGRAM, instructions_of  # noqa: E402

SOURCE = os.path.join(os.path.dirname(os.path.abspath(__file__)), "chosen.c")


def attributes(names):
    """All names become attributes of one node, and each is set once more."""
    return ["p new element b"], [f'p set n1 {name} "v"' for name in names] * 2


def ids(names):
    """Each name is the ID of a node."""
    return ["p new element b"] * len(names), [f'p set n{node} id "{name}"' for node, name in enumerate(names, 1)]


def local_names(names):
    return [], [f"p new element {name}" for name in names]


def types(names):
    """Listeners for so many types stand at one node."""
    return ["p new element b"], [f"p listen n1 {name} l log" for name in names]


KINDS = {attributes: "text", ids: "number", local_names: "text", types: "text"}


def names_of(writer, count, what):
    return subprocess.run([writer, str(count), what, "1"], check=True, capture_output=True, text=True).stdout.split()


def counted(program, kind, names):
    """The instructions of a line, without those that make the page."""
    page, lines = kind(names)
    return (instructions_of(program, page + lines)[0] - instructions_of(program, page)[0]) / len(lines)


def main():
    parser = argparse.ArgumentParser(usage=__doc__.split("Usage: ")[1].split("\n")[0])
    parser.add_argument("program", nargs="?", default=PROGRAM)
    parser.add_argument("--count", type=int, default=100_000)
    given = parser.parse_args()
    slower = 0
    with tempfile.TemporaryDirectory() as room:
        writer = os.path.join(room, "chosen")
        subprocess.run(["cc", "-O2", "-o", writer, SOURCE], check=True)
        for kind, what in KINDS.items():
            chosen, others = (counted(given.program, kind, names_of(writer, given.count, of)) for of in (what, "any"))
            slower += chosen > 2 * others
            print(f"{kind.__name__:16}{chosen:12,.0f} chosen, {others:,.0f} others", flush=True)
    return 1 if slower else 0


if __name__ == "__main__":
    sys.exit(main())
