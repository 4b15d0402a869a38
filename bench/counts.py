#!/usr/bin/env python3
"""Counts the instructions of a line, for each kind of work of bench/beside.py at both its sizes, and prints a table.

Usage: bench/counts.py [PROGRAM] [--steps N] [--kind NAME ..]

PROGRAM is the built domrun, crates/domrun/out/domrun if none is given. Instructions are counted by `valgrind --tool=callgrind`, which
other work does not disturb, as the difference of a script with the lines behind the page and one without. With --kind these kinds alone
are counted. Nothing here is part of the gate.
"""
import argparse
import sys
from concurrent.futures import ThreadPoolExecutor

sys.dont_write_bytecode = True
from apart import PROGRAM, instructions_of  # noqa: E402
from beside import BESIDE, Kind, sizes_of  # noqa: E402

STEPS = 4000


def counted(program: str, pool: ThreadPoolExecutor, kind: Kind, steps: int) -> list[str]:
    """The instructions of a line at each size."""
    found = []
    for size in sizes_of(kind, steps):
        page, lines = (list(part) for part in kind.make(size, steps))
        (alone, _), (both, _) = pool.map(lambda script: instructions_of(program, script), (page, page + lines))
        found.append(f"{(both - alone) / len(lines):,.0f}")
    return found


def main() -> int:
    parser = argparse.ArgumentParser(prog="bench/counts.py", description="Counts the instructions of a line, for each kind of work at two sizes.")
    parser.add_argument("program", metavar="PROGRAM", nargs="?", default=PROGRAM, help="the built domrun")
    parser.add_argument("--steps", metavar="N", type=int, default=STEPS, help=f"about how many lines a script has ({STEPS})")
    parser.add_argument("--kind", metavar="NAME", nargs="*", choices=[kind.name for kind in BESIDE], help="these kinds alone")
    words = parser.parse_args()
    print("| kind | sizes | instructions |\n|---|---|---|")
    with ThreadPoolExecutor(2) as pool:
        for kind in BESIDE:
            if not kind.asks and (not words.kind or kind.name in words.kind):
                sizes = " / ".join(f"{size:,}" for size in sizes_of(kind, words.steps))
                print(f"| {kind.says.format('so many')} | {sizes} | {' / '.join(counted(words.program, pool, kind, words.steps))} |", flush=True)
    return 0


if __name__ == "__main__":
    sys.exit(main())
