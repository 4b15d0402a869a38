#!/usr/bin/env python3
"""Times a page of elements in the engine by calls, in libxml2 and in pugixml, and prints tables: the time of each step, its
instructions, the memory of an element, and the instructions of a call.

Usage: bench/libraries.py [LIBRARY] [--says WORDS] [--elements N] [--rounds N] [--table NAME ..] [--program DOMRUN]

LIBRARY is a static library that exports the calls of bindings/c/owlantimony_typed.h, crates/dom_c/out/libdom_c.a if none is given. The head
of each table says what was measured: that library, as `tools/build library` proves and builds it, or what WORDS say of another one. A
library that is not the engine, such as bindings/out/standin/libstandin.a, is refused if WORDS do not say what it is.

The page and the steps stand in bench/libraries/work.h. Each program of bench/libraries does them in one library, on a page of its own, one
process each. libxml2 and pugixml have no selectors: what is asked of them is XPath, as their documentation has it; a program that walked by
itself would be faster. The engine takes UTF-16, so its program widens its texts, which is timed too.

A library that is not on this machine (Debian: libxml2-dev, libpugixml-dev) is said on standard error and left out, and so is the engine by
the lines of owlantimony_dom.h, and by typed calls, where LIBRARY has no such exports. Before anything is timed, all programs have to
find the same, and to leave the same page, after the first step and after the last.

Times are of the processor, the medians of the rounds (25 if no number is given); in a round each program runs once. Instructions are
counted by `valgrind --tool=callgrind`, which other work does not disturb: of a step the difference of a run with it and one without, of
a call the difference of a run with 2,000 of them and one with 2,000 empty turns. Memory is the peak of the process with a page of 499,000
elements and their Texts, less that of one without a page: an owner in the engine may make no more than a million nodes. Nothing here is
part of the gate.
"""
import argparse
import os
import re
import shlex
import statistics
import subprocess
import sys
import tempfile

sys.dont_write_bytecode = True
from apart import PROGRAM, instructions_of  # noqa: E402
from clock import peak_of  # noqa: E402

HERE = os.path.dirname(os.path.abspath(__file__))
ROOT = os.path.dirname(HERE)
PROVED = os.path.join(ROOT, "crates", "dom_c", "out", "libdom_c.a")
SOURCES = os.path.join(HERE, "libraries")
BINDINGS = os.path.join(ROOT, "bindings", "c")
STEPS = {"build": "built", "walk": "walked", "name": "queried by name", "class": "queried by class", "change": "changed"}
TABLES = ("times", "instructions", "memory", "calls")
MOST, TURNS = 499_000, 2_000

# The calls that are counted, and the line of each in domrun, on a list of 2,000 elements with an attribute and a Text each.
CALLS = {
    "append": "append n1 n{node}",
    "links": None,
    "parent": "parent n{node}",
    "children": "children n{node}",
    "create_element": "new element li",
    "create_text": 'new text "word 500"',
    "set_attribute": 'set n{node} class "changed"',
    "get_attribute": "attr n{node} class",
    "remove": "remove n{node}",
}


def say(words):
    print(f"libraries: {words}", file=sys.stderr, flush=True)


def output_of(words):
    """What a command prints; nothing if it can't be run."""
    try:
        return subprocess.run(words, capture_output=True, text=True, check=True).stdout
    except (OSError, subprocess.CalledProcessError):
        return ""


class Programs:
    """The programs that could be built, by the title of each, in a folder."""

    def __init__(self, folder, library):
        self.folder, self.paths = folder, {}
        names = set(re.findall(r" T (\w+)$", output_of(["nm", "--defined-only", library]), re.M))
        self.is_engine = "dom_session_line" in names
        kit = output_of(["rt", "doc"]).strip()
        heap = os.path.join(os.path.dirname(kit), "c", "liblibc_c.a")
        engine = [f"-I{BINDINGS}", library, *([heap] if kit and os.path.exists(heap) else [])]
        if "dom_links" in names:
            self.build("typed calls", "ours.c", engine)
            self.build("", "calls.c", engine)
        else:
            say(f"{library} exports no typed calls")
        if self.is_engine:
            self.build("calls by lines", "lines.c", engine)
        self.build("libxml2", "libxml2.c", shlex.split(output_of(["xml2-config", "--cflags", "--libs"])))
        self.build("pugixml", "pugixml.cpp", ["-lpugixml"])

    def build(self, title, source, words):
        """Builds a program; one that can't be built is left out."""
        path = os.path.join(self.folder, source.split(".")[0])
        compiler = ["c++", "-O2"] if source.endswith(".cpp") else ["cc", "-O2", "-std=gnu99"]
        done = subprocess.run([*compiler, "-o", path, os.path.join(SOURCES, source), *words], capture_output=True, text=True, check=False)
        if done.returncode:
            say(f"{source} can't be built: {(done.stderr.splitlines() or ['?'])[0]}")
        elif title:
            self.paths[title] = path

    def counter(self):
        """The program that makes calls of one kind, or None."""
        path = os.path.join(self.folder, "calls")
        return path if os.path.exists(path) else None


def steps_of(path, count, steps, *more):
    """What a program printed: of each step its microseconds, and what it found."""
    printed = subprocess.run([path, str(count), str(steps), *more], capture_output=True, text=True, check=True).stdout
    rows = [line.split() for line in printed.splitlines()]
    return {row[0]: float(row[1]) for row in rows if len(row) == 3}, [(row[0], row[-1]) for row in rows]


def do_same(paths, count):
    """Whether all programs find the same and leave the same page. Each difference is said."""
    is_same = True
    for steps in (1, len(STEPS)):
        found = {title: steps_of(path, count, steps, "check")[1] for title, path in paths.items()}
        for title, what in found.items():
            if what != next(iter(found.values())):
                say(f"after {steps} steps {title} has {what}, and not {next(iter(found.values()))}")
                is_same = False
    return is_same


def table(head, rows):
    print(f"| {' | '.join(head)} |\n|{'---|' * len(head)}")
    for row in rows:
        print(f"| {' | '.join(row)} |", flush=True)
    print()


def times(paths, count, rounds):
    """The median of each step's microseconds, as milliseconds."""
    taken = {title: {step: [] for step in STEPS} for title in paths}
    for turn in range(rounds):
        for title, path in paths.items():
            for step, micros in steps_of(path, count, len(STEPS))[0].items():
                taken[title][step].append(micros)
        if (turn + 1) % 5 == 0:
            say(f"round {turn + 1} of {rounds}")
    middle = {title: {step: statistics.median(kept) for step, kept in steps.items()} for title, steps in taken.items()}
    print(f"{count:,} elements with an attribute and a Text each, in milliseconds of processor: medians of {rounds} rounds\n")
    table(["", *paths], [[says, *(f"{middle[title][step] / 1000:.2f}" for title in paths)] for step, says in STEPS.items()])


def collected(words):
    """The instructions of a command."""
    counter = ["valgrind", "--tool=callgrind", "--callgrind-out-file=/dev/null"]
    ended = subprocess.run([*counter, *words], capture_output=True, text=True, check=True)
    return int(re.search(r"Collected : (\d+)", ended.stderr)[1])


def instructions(paths, count):
    """The instructions of each step, as those for an element of the page."""
    counted = {title: [collected([path, str(count), str(steps)]) for steps in range(len(STEPS) + 1)] for title, path in paths.items()}
    print(f"{count:,} elements, instructions for each of them\n")
    rows = [[says, *(f"{(counted[title][at + 1] - counted[title][at]) / count:,.0f}" for title in paths)]
            for at, says in enumerate(STEPS.values())]
    table(["", *paths], rows)


def memory(paths):
    """The bytes of an element with its attribute and its Text."""
    print(f"Memory of an element with an attribute and a Text, of a page of {MOST:,}\n")
    found = [f"{(peak_of([path, str(MOST), '1']) - peak_of([path, '0', '1'])) / MOST:,.0f}" for path in paths.values()]
    table(["", *paths], [["bytes", *found]])


def page_in_lines():
    """The list of bench/libraries/calls.c as lines, and the numbers of its elements."""
    page, nodes = ["p new element ul", "p append n0 n1"], []
    for at in range(TURNS):
        node = 2 + 2 * at
        nodes.append(node)
        page += ["p new element li", f'p set n{node} class "changed"', 'p new text "word 500"', f"p append n{node} n{node + 1}"]
        page.append(f"p append n1 n{node}")
    return page, nodes


def calls(counter, program):
    """The instructions of a call of each kind, and of its line where the program is there."""
    page, nodes = page_in_lines()
    alone = instructions_of(program, page)[0] if os.path.exists(program) else None
    loop = collected([counter, "nothing", str(TURNS)])
    print("Instructions of a call, and of its line in the program, on a list of 2,000 elements with an attribute and a Text each\n")
    rows = []
    for kind, line in CALLS.items():
        by_line = "–"
        if line and alone is not None:
            lines = [f"p {line.format(node=nodes[turn * 7 % TURNS])}" for turn in range(TURNS)]
            by_line = f"{(instructions_of(program, page + lines)[0] - alone) / TURNS:,.0f}"
        rows.append([f"`{kind}`", f"{(collected([counter, kind, str(TURNS)]) - loop) / TURNS:,.0f}", by_line])
    table(["", "call", "line"], rows)


def versions():
    """What the libraries beside the engine are."""
    found = {"libxml2": output_of(["xml2-config", "--version"]).strip()}
    found["pugixml"] = output_of(["dpkg-query", "-W", "-f", "${Version}", "libpugixml-dev"]).strip()
    return "; ".join(f"{name} {version}" for name, version in found.items() if version)


def arguments():
    parser = argparse.ArgumentParser(prog="bench/libraries.py", description="Times a page in the engine, in libxml2 and in pugixml.")
    parser.add_argument("library", metavar="LIBRARY", nargs="?", default=PROVED, help="the static library with the typed calls")
    parser.add_argument("--says", metavar="WORDS", help="what LIBRARY is, for the tables' head")
    parser.add_argument("--elements", metavar="N", type=int, default=10_000, help="the elements of the page")
    parser.add_argument("--rounds", metavar="N", type=int, default=25, help="how often each program runs for the times")
    parser.add_argument("--table", metavar="NAME", nargs="*", choices=TABLES, default=TABLES, help=f"these alone: {', '.join(TABLES)}")
    parser.add_argument("--program", metavar="DOMRUN", default=PROGRAM, help="the built domrun, whose lines are counted beside the calls")
    return parser.parse_args()


def main():
    words = arguments()
    if not os.path.exists(words.library):
        say(f"{words.library} is not there: `tools/build library` proves and builds it")
        return 1
    is_proved = os.path.realpath(words.library) == os.path.realpath(PROVED)
    with tempfile.TemporaryDirectory() as folder:
        programs = Programs(folder, words.library)
        if not is_proved and not words.says:
            kind = "not built by `tools/build library`" if programs.is_engine else "not the engine"
            say(f"{words.library} is {kind}: --says has to say what it is, for the tables' head")
            return 1
        if len(programs.paths) < 2 or not do_same(programs.paths, words.elements):
            return 1
        print(f"{words.says or 'The engine, proved'}; {versions()}\n")
        if "times" in words.table:
            times(programs.paths, words.elements, words.rounds)
        if "instructions" in words.table:
            instructions(programs.paths, words.elements)
        if "memory" in words.table:
            memory(programs.paths)
        if "calls" in words.table and programs.counter():
            calls(programs.counter(), words.program)
    return 0


if __name__ == "__main__":
    sys.exit(main())
