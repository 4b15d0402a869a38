#!/usr/bin/env python3
"""Counts what lines cost on a page that has much which they do not concern.

Usage: bench/apart.py [PROGRAM] [--thing NAME..] [--around WORD..] [--all]

With --thing the things alone are tried that are named, with --around the surroundings alone whose names hold a word.

PROGRAM is the built domrun, crates/domrun/out/domrun if none is given. A small page is made, and beside it so many other things, at two
sizes, the second four times the first: elements, ranges, observers, .. . Each kind of line then runs on the small page, and its
instructions are counted by `valgrind --tool=callgrind`, which other work does not disturb, as the difference of a script with them and one
without. A kind of line that takes more than a tenth more at the larger size is printed, all of them with --all.
"""
import argparse
import os
import re
import subprocess
import sys
import tempfile
from concurrent.futures import ThreadPoolExecutor

sys.dont_write_bytecode = True
from kinds import down, new_range, wide  # noqa: E402

PROGRAM = os.path.join(os.path.dirname(os.path.abspath(__file__)), "..", "crates", "domrun", "out", "domrun")
SIZES = (500, 2000)
# So many lines are counted that what a run pays once, at its end, for all that it frees counts for little.
TURNS = 2000
LAST = 14

# A list of ten rows, the first of which holds a Text; a row and a section beside it; and one each of what a page may have.
PAGE = [
    "p new element ul", *["p new element li"] * 10, *[f"p append n1 n{row}" for row in range(2, 12)],
    'p new text "some words of text here"', "p append n2 n12", "p new element li", "p new element section", "p append n0 n14",
    "p range-new", "p range-start r0 n1 0", "p range-end r0 n1 1", "p iter-new n1 all", "p walk-new n1 all",
    "p observer", "p observe o0 n1 childList attributes subtree", "p listen n2 t l0 log", "p .",
]


def elements(size, name="b"):
    """So many elements, and their names."""
    return [f"p new element {name}"] * size, [f"n{LAST + 1 + number}" for number in range(size)]


def children(size):
    lines, names = elements(size + 1)
    return lines + [f"p append {names[0]} {child}" for child in names[1:]]


def roots(size):
    return elements(size)[0]


def texts(size):
    return ['p new text "abc"'] * size


def documents(size):
    return ["p new document"] * size


def attributes(size):
    return ["p new element b", *[f'p set n{LAST + 1} a{number} "v"' for number in range(size)]]


def ranges(size):
    lines = children(10)
    for number in range(1, size + 1):
        lines += ["p range-new", f"p range-start r{number} n{LAST + 1} {number % 10}", f"p range-end r{number} n{LAST + 1} {number % 10 + 1}"]
    return lines


def iterators(size):
    return children(10) + [line for number in range(1, size + 1) for line in (f"p iter-new n{LAST + 1} all", f"p iter-next i{number}")]


def walkers(size):
    return children(10) + [f"p walk-new n{LAST + 1} all"] * size


def observers(size, asked="childList attributes"):
    lines, names = elements(size)
    for number, name in enumerate(names, 1):
        lines += ["p observer", f"p observe o{number} {name} {asked}"]
    return [*lines, "p ."]


def observers_below(size):
    return observers(size, "childList subtree")


def listeners(size):
    lines, names = elements(size)
    return lines + [f"p listen {name} t l{number} log" for number, name in enumerate(names)]


def microtasks(size):
    return [f"p micro q{number}" for number in range(size)]


def hosts(size):
    """At most a thousand, since a page has no more components."""
    count = min(size, 1000)
    lines, names = elements(count, "div")
    for number, name in enumerate(names, 1):
        component = f"c{number}"
        lines += [f"p append n14 {name}", f"p attach {name}", "p .", f"{component} new element slot", f"{component} append m0 m1", f"{component} ."]
    return lines


THINGS = (children, roots, texts, documents, attributes, ranges, iterators, walkers, observers, observers_below, listeners, microtasks, hosts)
LINES = {
    "append": lambda turn: [f"p append n1 n{2 + turn % 10}"],
    "remove, insert": lambda turn: [f"p remove n{3 + turn % 8}", f"p insert n1 n{3 + turn % 8} n11"],
    "replace": lambda _: ["p replace n1 n13 n5", "p replace n1 n5 n13"],
    "adopt": lambda _: ["p adopt n0 n13"],
    "set": lambda turn: [f'p set n3 class "v{turn % 10}"'],
    "unset": lambda _: ['p set n4 x "v"', "p unset n4 x"],
    "replace-data": lambda _: ['p replace-data n12 1 2 "xy"'],
    "parent": lambda _: ["p parent n5"],
    "children": lambda _: ["p children n1"],
    "contains": lambda _: ["p contains n1 n12"],
    "connected": lambda _: ["p connected n12"],
    "docof": lambda _: ["p docof n2"],
    "slot-of": lambda _: ["p slot-of n2"],
    "query": lambda _: ['p query n1 "li"'],
    "dispatch": lambda _: ["p dispatch n2 t bubbles"],
    "listen, unlisten": lambda _: ["p listen n3 t x log", "p unlisten n3 t x"],
    "range-start, range-end": lambda turn: [f"p range-start r0 n1 {turn % 5}", f"p range-end r0 n1 {5 + turn % 5}"],
    "range-get": lambda _: ["p range-get r0"],
    "range-text": lambda _: ["p range-text r0"],
    "iter-next, iter-prev": lambda _: ["p iter-next i0", "p iter-prev i0"],
    "walk": lambda _: ["p walk w0 first", "p walk w0 parent"],
    "observe": lambda _: ["p observe o0 n1 childList attributes subtree"],
    "observer, observe, disconnect": lambda turn: ["p observer", f"p observe o{{next}} n3 attributes", f"p disconnect o{{next}}"],
    "take": lambda _: ["p take o0"],
    "parent, end of the turn": lambda _: ["p parent n2", "p ."],
    "set, end of the turn": lambda turn: [f'p set n3 class "v{turn % 10}"', "p ."],
    "remove, append, end of the turn": lambda _: ["p remove n3", "p append n1 n3", "p ."],
}


# ---- surroundings: each gives the lines that make the page, and those that are counted

AROUND = (100, 800)


def host_behind(node):
    """An element of this number that becomes a host without slots."""
    return ["p new element div", f"p attach n{node}", "p ."]


def append_at_depth(size):
    """Two elements without children become the last one in turn at the end of a chain; elsewhere is a host."""
    page = [*down(size - 1), "p new element b", "p new element i", *host_behind(size + 3)]
    return page, [f"p append n{size} n{size + 1 + turn % 2}" for turn in range(TURNS)]


def set_at_depth(size):
    page = [*down(size - 1), *host_behind(size + 1)]
    return page, [f'p set n{size} class "v{turn % 10}"' for turn in range(TURNS)]


def set_under_observer(size):
    page = [*down(size - 1), "p observer", "p observe o0 n1 attributes subtree", "p ."]
    return page, [line for turn in range(TURNS // 100) for line in [f'p set n{size} class "v{turn}"'] * 100 + ["p ."]]


def dispatch_at_depth(size):
    return [*down(size - 1)], [f"p dispatch n{size} t bubbles"] * TURNS


def walk_at_depth(size):
    return [*down(size), "p walk-new n1 all", f"p walk-set w0 n{size}"], ["p walk w0 first", "p walk w0 parent"] * (TURNS // 2)


def component_page(slots, children, slot_of):
    """A host below n1 with so many slots in its tree, each of a name and below the root's one child, and so many children."""
    page = ["p new element body", "p append n0 n1", "p new element div", "p append n1 n2"]
    for child in range(children):
        page += ["p new element b", f'p set n{child + 3} slot "s{slot_of(child)}"', f"p append n2 n{child + 3}"]
    page += ["p attach n2", "p .", "c1 new element p"]
    for slot in range(slots):
        page += ["c1 new element slot", f'c1 set m{slot + 2} name "s{slot}"', f"c1 append m1 m{slot + 2}"]
    return [*page, "c1 append m0 m1", "c1 ."]


def slot_among_slots(size):
    """Slots become the last one in turn, and each has a child of the host."""
    page = component_page(size, size, lambda child: child)
    return page, [line for turn in range(TURNS // 10) for line in (f"c1 append m1 m{2 + turn % size}", "c1 .")]


def slottable_before_others(size):
    """Two children of a host go to the front in turn; each has a slot of its own, and so have all others."""
    page = component_page(10, size, lambda child: child if child < 2 else 2 + child % 8)
    return page, [f"p insert n2 n{3 + turn % 2} n{4 - turn % 2}" for turn in range(TURNS)]


def slottable_of_last_slot(size):
    """A child of a host goes to and fro between it and another element; its slot is the last of the tree."""
    page = component_page(size, 1, lambda _: size - 1) + ["p new element b"]
    return page, [f"p append n{4 - turn % 2 * 2} n3" for turn in range(TURNS)]


def slottables_of_one_slot(size):
    """Children of a host that have one slot become the last one in turn."""
    page = component_page(1, size, lambda _: 0)
    return page, [f"p append n2 n{3 + turn * 7 % size}" for turn in range(TURNS)]


def subtree_without_slots(size):
    """In a shadow tree a chain goes to and fro between two parents."""
    page = [*component_page(0, 0, None), *["c1 new element a"] * size]
    page += [f"c1 append m{node} m{node + 1}" for node in range(2, size + 1)]
    return [*page, "c1 ."], [f"c1 append m{turn % 2} m2" for turn in range(TURNS)]


def subtree_under_ranges(size):
    """A chain leaves and comes back while 2,000 ranges stand elsewhere."""
    page = [*down(size), "p new element b", "p new element b", f"p append n{size + 2} n{size + 3}"]
    for number in range(2000):
        page += new_range(number, f"n{size + 2} 0", f"n{size + 2} 1")
    return page, ["p remove n2", "p append n1 n2"] * (TURNS // 2)


def subtree_under_iterators(size):
    """A chain leaves and comes back while 2,000 iterators stand elsewhere."""
    page = [*down(size), "p new element b", "p new element b", f"p append n{size + 2} n{size + 3}"]
    for number in range(2000):
        page += [f"p iter-new n{size + 2} all", f"p iter-next i{number}"]
    return page, ["p remove n2", "p append n1 n2"] * (TURNS // 2)


def two_lists(size):
    """Children of two lists in turn become the last one; in each list stands a range."""
    page = ["p new element ul", "p new element ul"]
    for child in range(2 * size):
        page += ["p new element li", f"p append n{1 + child % 2} n{child + 3}"]
    page += [*new_range(0, f"n1 {size - 1}", f"n1 {size}"), *new_range(1, f"n2 {size - 1}", f"n2 {size}")]
    return page, [f"p append n{1 + turn % 2} n{3 + turn % 2 + 2 * (turn // 2 * 7 % size)}" for turn in range(TURNS)]


def range_among_ranges(size):
    page = [*wide(10)]
    for number in range(size):
        page += new_range(number, f"n1 {number % 10}", f"n1 {number % 10 + 1}")
    return page, ["p range-new", "p range-drop r{next}"] * (TURNS // 2)


def range_start(size):
    return [*wide(size), "p range-new"], ["p range-start r0 n1 0"] * TURNS


def iterator_among_iterators(size):
    """Each child of a list is the root of an iterator, and more come at the first child."""
    page = [*wide(size), *[f"p iter-new n{child + 2} all" for child in range(size)]]
    return page, ["p iter-new n2 all"] * TURNS


def last_text_split(size):
    """The last child is a Text, which is split and joined."""
    page = [*wide(size - 1), 'p new text "abcd"', f"p append n1 n{size + 1}"]
    return page, [line for turn in range(TURNS // 2) for line in (f"p split n{size + 1} 2", f"p remove n{size + 2 + turn}")]


def long_text(size):
    """A unit is ten code units of the Text."""
    return [f'p new text "{"x" * 10 * size}"'], ['p replace-data n1 1 2 "xy"'] * TURNS


def listeners_of_types(size):
    """Listeners of so many types come to one node, and go but for the last, which then hears an event."""
    types = [f"t{number}" for number in range(size)]
    listened = [f"p listen n1 {each} l log" for each in types]
    unlistened = [f"p unlisten n1 {each} l" for each in types[:-1]]
    return ["p new element b"], [*listened, *unlistened, f"p dispatch n1 {types[-1]}"]


# Where a kind is tried at other sizes.
OWN_SIZES = {listeners_of_types: (20_000, 40_000)}

SURROUNDINGS = (
    append_at_depth, set_at_depth, set_under_observer, dispatch_at_depth, walk_at_depth, slot_among_slots, slottable_before_others,
    slottable_of_last_slot, slottables_of_one_slot, subtree_without_slots, subtree_under_ranges, subtree_under_iterators, two_lists,
    range_among_ranges, range_start, iterator_among_iterators, last_text_split, long_text, listeners_of_types,
)


def instructions_of(program, lines):
    """The instructions that the program takes for a script, and how many lines it refuses."""
    with tempfile.TemporaryDirectory() as room:
        path = os.path.join(room, "script")
        with open(path, "w", encoding="ascii") as script:
            script.write("\n".join(lines) + "\n")
        words = ["valgrind", "--tool=callgrind", "--callgrind-out-file=/dev/null", program, path]
        ended = subprocess.run(words, check=True, capture_output=True, text=True)
    return int(re.search(r"Collected : (\d+)", ended.stderr)[1]), ended.stdout.count(" ! ")


def lines_of(kind, first):
    """So many turns of a kind of line; `first` is the number of the next observer."""
    return [line.format(next=first + turn) for turn in range(TURNS) for line in LINES[kind](turn)]


def sizes_of(kind):
    return OWN_SIZES.get(kind, AROUND)


def counted_around(program, pool, kind):
    """The instructions of a line at both sizes, and how many lines are refused."""
    def counted(size):
        page, lines = kind(size)
        lines = [line.format(next=size + turn // 2) for turn, line in enumerate(lines)]
        (alone, before), (both, refused) = pool.map(lambda script: instructions_of(program, script), (page, page + lines))
        return (both - alone) / len(lines), refused - before
    (small, no), (large, none) = (counted(size) for size in sizes_of(kind))
    return small, large, no + none


def around(program, words, print_all):
    """Counts the lines whose own surroundings grow; gives how many kinds do, and how many lines were refused."""
    grown = refused = 0
    with ThreadPoolExecutor(os.cpu_count()) as pool:
        for kind in [it for it in SURROUNDINGS if not words or any(word in it.__name__ for word in words)]:
            small, large, no = counted_around(program, pool, kind)
            sizes = sizes_of(kind)
            rate = (large - small) / (sizes[1] - sizes[0])
            grows = rate > 2 or kind in OWN_SIZES and large > 1.1 * small
            refused += no
            grown += grows
            if grows or print_all:
                print(f"{kind.__name__:28}{small:12,.0f} / {large:,.0f}, {rate:,.1f} a unit", flush=True)
    return grown, refused


def beside(program, names, print_all):
    """Counts the lines beside things that they do not concern; gives how many kinds grow, and how many lines were refused."""
    grown = refused = 0
    with ThreadPoolExecutor(os.cpu_count()) as pool:
        for thing in [it for it in THINGS if not names or it.__name__ in names]:
            pages = [PAGE + thing(size) for size in SIZES]
            alone = list(pool.map(lambda page: instructions_of(program, page), pages))
            scripts = {kind: [page + lines_of(kind, 1 + page.count("p observer") - 1) for page in pages] for kind in LINES}
            counted = {kind: [pool.submit(instructions_of, program, script) for script in both] for kind, both in scripts.items()}
            for kind, both in counted.items():
                many = len(lines_of(kind, 0))
                taken = [(count.result()[0] - start) / many for count, (start, _) in zip(both, alone)]
                refused += sum(count.result()[1] - start for count, (_, start) in zip(both, alone))
                grows = taken[1] > 1.1 * taken[0]
                grown += grows
                if grows or print_all:
                    print(f"{thing.__name__:16}{kind:34}{taken[0]:8,.0f} / {taken[1]:,.0f}", flush=True)
    return grown, refused


def main():
    parser = argparse.ArgumentParser(usage=__doc__.split("Usage: ")[1].split("\n")[0])
    parser.add_argument("program", nargs="?", default=PROGRAM)
    parser.add_argument("--thing", nargs="+", choices=[thing.__name__ for thing in THINGS])
    parser.add_argument("--around", nargs="+")
    parser.add_argument("--all", action="store_true")
    given = parser.parse_args()
    grown = refused = 0
    if given.thing or not given.around:
        grown, refused = beside(given.program, given.thing, given.all)
        print(f"kinds of lines: {len(LINES)}, things: {len(given.thing or THINGS)}, that grow: {grown}, lines refused: {refused}")
    if given.around or not given.thing:
        grown, no = around(given.program, given.around, given.all)
        refused += no
        print(f"surroundings that grow: {grown}, lines refused: {no}")
    return 1 if refused else 0


if __name__ == "__main__":
    sys.exit(main())
