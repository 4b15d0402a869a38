#!/usr/bin/env python3
"""Times the built program on scripts of growing length, beside `wc -l` of the same file.

Usage: bench/bench.py [PROGRAM]      (PROGRAM: the built domrun, crates/domrun/out/domrun if none is given)

Each kind of script is made twice, the second one four times as long. For each is printed: its lines, the seconds of processor that
the program takes (the best of three runs), microseconds per line, and how many times as long as `wc -l` that is. Where the
microseconds per line of the longer script are more than twice those of the shorter one, the kind is marked 'grows'.
Then come the kinds with hosts and one with ranges, each at two sizes a factor of eight apart: the number of hosts, of one host's
children, or of ranges. There the lines that make the page are timed alone too, and the microseconds are those of the lines behind them. So
are the instructions that these take, which `valgrind` counts where it is installed: no other work disturbs that. Behind each kind stands how
many times as much a line takes at the larger size, and at last how many times as much among the most hosts as without any.
The memory that an element takes stands before all this, while this program has little itself. At last short lines are answered one by one
through a pipe and through the Python binding.
Nothing here is part of the gate.
"""
import os
import shutil
import subprocess
import sys
import tempfile
import time

sys.dont_write_bytecode = True
import kinds  # noqa: E402
from apart import instructions_of  # noqa: E402
from clock import peak_of, processor_seconds_of  # noqa: E402

PROGRAM = os.path.join(os.path.dirname(os.path.abspath(__file__)), "..", "crates", "domrun", "out", "domrun")
BINDING = os.path.join(os.path.dirname(os.path.abspath(__file__)), "..", "bindings", "python")
LENGTHS = (10_000, 40_000)


def timed(program, kind, count, folder):
    """Makes a script, runs it, and gives its lines, seconds, microseconds per line and the ratio to `wc -l`."""
    path = os.path.join(folder, f"{kind.__name__}-{count}.txt")
    lines = list(kind(count))
    with open(path, "w", encoding="ascii") as script:
        script.write("\n".join(lines) + "\n")
    taken = processor_seconds_of([program, path])
    return len(lines), taken, taken / len(lines) * 1e6, taken / processor_seconds_of(["wc", "-l", path])


def timed_behind(program, kind, size, folder):
    """Makes a script with its first lines and one without the others, and gives those others, their microseconds per line and, where
    they can be counted, their instructions per line."""
    first, others = (list(lines) for lines in kind(size))
    taken, counted = [], []
    for lines in (first, first + others):
        path = os.path.join(folder, f"{kind.__name__}-{size}-{len(lines)}.txt")
        with open(path, "w", encoding="ascii") as script:
            script.write("\n".join(lines) + "\n")
        taken.append(processor_seconds_of([program, path]))
        if shutil.which("valgrind"):
            counted.append(instructions_of(program, lines)[0])
    instructions = (counted[1] - counted[0]) / len(others) if counted else None
    return len(others), taken[0], (taken[1] - taken[0]) / len(others) * 1e6, instructions


def times_as_much(more, less):
    """How many times as much time, and as many instructions, two pairs of figures are."""
    counted = f"{more[1] / less[1]:.2f} times the instructions, " if more[1] and less[1] else ""
    return f"{counted}{more[0] / less[0]:.2f} times the microseconds"


def sized(program, folder):
    """Times and counts the kinds that have a size, and prints how that grows."""
    print(f"{'kind':<18}{'size':>6}{'lines':>9}{'made in':>10}{'us/line':>10}{'instructions':>14}")
    at_most = {}
    for kind, sizes in kinds.SIZED:
        figures = []
        for size in sizes:
            lines, made, micros, counted = timed_behind(program, kind, size, folder)
            figures.append((micros, counted))
            print(f"{kind.__name__:<18}{size:>6}{lines:>9}{made:>10.3f}{micros:>10.2f}{f'{counted:,.0f}' if counted else '-':>14}")
        at_most[kind] = figures[-1]
        print(f"    a line at {sizes[1]} takes {times_as_much(figures[1], figures[0])} of one at {sizes[0]}")
    print(f"    a line among hosts takes {times_as_much(at_most[kinds.slotted_hosts], at_most[kinds.plain_parents])} of one without")


def memory(program, folder, count=900_000):
    """Elements without attributes below one parent: the bytes that each takes, by two runs that take far more than this
    program, whose own memory counts as theirs up to their start."""
    taken = []
    for length in (count // 3, count):
        path = os.path.join(folder, "memory.txt")
        with open(path, "w", encoding="ascii") as script:
            script.writelines(f"{line}\n" for line in kinds.wide(length))
        taken.append(peak_of([program, path]))
    print(f"memory, {count:,} elements without attributes: {taken[1] / 1e6:.0f} MB at most, {(taken[1] - taken[0]) / (count - count // 3):.0f} bytes each")


def by_pipe(program, lines):
    """The seconds in which a program that stays answers lines one by one, each read before the next is written."""
    with subprocess.Popen([program], stdin=subprocess.PIPE, stdout=subprocess.PIPE) as child:
        start = time.perf_counter()
        for line in lines:
            child.stdin.write(line + b"\n")
            child.stdin.flush()
            child.stdout.readline()
        taken = time.perf_counter() - start
        child.stdin.close()
    return taken


def by_library(lines):
    """The seconds in which a session of the Python binding answers them."""
    sys.path.insert(0, BINDING)
    from owlantimony import Session

    with Session() as session:
        start = time.perf_counter()
        for line in lines:
            session.line_bytes(line)
        return time.perf_counter() - start


def embedded(program):
    """Short lines, each with one line of answer, through a pipe and through the library: microseconds per line, the best of three."""
    lines = [line.encode("ascii") for line in kinds.reads(LENGTHS[0])]
    piped = min(by_pipe(program, lines) for _ in range(3)) / len(lines) * 1e6
    print(f"embedded, {len(lines)} lines one by one: {piped:.1f} us/line through a pipe", end="")
    try:
        linked = min(by_library(lines) for _ in range(3)) / len(lines) * 1e6
        print(f", {linked:.1f} through the library from Python")
    except OSError as fault:
        print(f"; no library, which bindings/check --build makes: {fault}")


def main():
    program = sys.argv[1] if len(sys.argv) > 1 else PROGRAM
    with tempfile.TemporaryDirectory() as folder:
        memory(program, folder)
        print(f"{'kind':<12}{'lines':>9}{'seconds':>10}{'us/line':>10}{'x wc -l':>10}")
        for kind in kinds.PLAIN:
            per_line = []
            for count in LENGTHS:
                lines, taken, micros, ratio = timed(program, kind, count, folder)
                per_line.append(micros)
                mark = "  grows" if len(per_line) == 2 and per_line[1] > 2 * per_line[0] else ""
                print(f"{kind.__name__:<12}{lines:>9}{taken:>10.3f}{micros:>10.2f}{ratio:>10.1f}{mark}")

        sized(program, folder)
    embedded(program)


if __name__ == "__main__":
    main()
