"""The kinds of work that bench/peers.py times beside browsers: script lines, and the table `BESIDE` of the kinds.

Each kind takes a size and a number of steps, and gives the lines that make the page and those behind them that are timed.
"""
from collections import namedtuple
from itertools import islice

from kinds import appended, down, new_range, put_first, ranged_text, slotted_children, slotted_hosts, split_and_joined, text_in_parent, up, wide


def behind(lines, count):
    """So many lines, and the others."""
    lines = iter(lines)
    return list(islice(lines, count)), lines


def scattered(count, size):
    """So many numbers below `size`, the same ones each time."""
    state = 1
    for _ in range(count):
        state = (state * 1_103_515_245 + 12_345) % 2**31
        yield (state >> 8) % size


def in_turns(lines, length=100):
    """The lines, with an end of the page's turn behind each so many of them."""
    for number, line in enumerate(lines, 1):
        yield line
        if number % length == 0:
            yield "p ."


def appended_children(size, _):
    return behind(wide(size), 1)


def first_under_ranges(size, steps):
    """The ranges stand around a child each, and move with every child that is put first."""
    first = [*wide(size)]
    for number in range(size):
        first += new_range(number, f"n1 {number}", f"n1 {number + 1}")
    return first, put_first(steps // 2, size + 2, 2)


def chain_from_below(size, _):
    return behind(up(size), 1)


def removed_under_iterators(size, steps):
    """The iterators stand at the first children in turn; each child is removed and put back, and then one of them goes on."""
    first = [*wide(1000)]
    for number in range(size):
        first.append("p iter-new n1 element")
        first += [f"p iter-next i{number}"] * (number + 2)

    def others():
        for turn, place in enumerate(scattered(steps // 3, 999)):
            yield f"p remove n{place + 2}"
            yield f"p insert n1 n{place + 2} n{place + 3}"
            yield f"p iter-next i{turn % size}"
    return first, others()


def split_under_range(size, _):
    """The split is inside the range."""
    return [*text_in_parent(), *new_range(0, "n2 2", "n2 8")], split_and_joined(size, 5)


def extracted(size, steps):
    """What lies between two Texts of a paragraph of so many, with a part of each, is extracted, put back and joined."""
    first = ["p new element p"]
    for number in range(size):
        first += [f'p new text "some words {number}"', f"p append n1 n{2 * number + 2}", "p new element b", f"p append n1 n{2 * number + 3}"]
    first.append("p range-new")
    texts = [2 * number + 2 for number in range(size)]

    def others():
        fragment = 2 * size + 2
        for place in scattered(steps // 10, size - 2):
            yield f"p range-start r0 n{texts[place]} 4"
            yield f"p range-end r0 n{texts[place + 2]} 6"
            yield "p extract r0"
            yield f"p insert-node r0 n{fragment}"
            yield "p normalize n1"
            texts[place + 2] = fragment + 2
            fragment += 3
    return first, others()


def among_listeners(size, steps):
    """Ten listeners of ten types at each of so many tenths of elements; each dispatch finds one of them."""
    first = [*wide(size // 10)]
    first += [f"p listen n{number // 10 + 2} t{number % 10} l{number} log" for number in range(size)]
    return first, (f"p dispatch n{number // 10 + 2} t{number % 10} bubbles" for number in scattered(steps, size))


def up_the_tree(size, steps):
    """A chain of so many elements with a listener each, all of which hear each dispatch."""
    first = [*down(size - 1), *(f"p listen n{node} t l{node} log" for node in range(1, size + 1))]
    return first, (f"p dispatch n{size} t bubbles" for _ in range(steps // 20))


def seen_by_one(size, steps):
    """Attributes of so many children are set; an observer of their parent sees it all."""
    first = [*wide(size), "p observer", "p observe o0 n1 attributes subtree attributeOldValue", "p ."]
    return first, set_in_turn(size, steps)


def seen_by_many(size, steps):
    """Attributes of so many children are set, each of which has an observer of its own."""
    first = [*wide(size)]
    for number in range(size):
        first += ["p observer", f"p observe o{number} n{number + 2} attributes attributeOldValue"]
    return [*first, "p ."], set_in_turn(size, steps)


def set_in_turn(size, steps):
    """The lines that set them."""
    return in_turns(f'p set n{place + 2} class "row {turn}"' for turn, place in enumerate(scattered(steps, size)))


SELECTORS = ("ul > li:not([lang|=en])", "li.c1 b", "li.c2 > b.d3", "[title^='n1']", "b:first-child", "#i77, #i78", "li.c3 + li.c4 i", ".c0 .d1 ~ .d2")


def asked(size, steps):
    """Lists of ten rows of four elements: so many elements in all, with classes, some with ids, languages and titles."""
    first = ["p new element main", "p new element ul", "p append n1 n2"]
    for node in range(3, size + 1):
        place = node % 5
        first.append(f"p new element {('li', 'b', 'b', 'i', 'i')[place - 3]}")
        first.append(f'p set n{node} class "{"c" if place == 3 else "d"}{node // 5 % 5} row"' if place != 4 else f'p set n{node} title "n{node}"')
        first += [f'p set n{node} id "i{node}"'] * (node % 7 == 0) + [f'p set n{node} lang "en-GB"'] * (node % 15 == 3)
        first.append(f"p append n{2 if place == 3 else node - (node - 3) % 5} n{node}")
    return first, (f'p query n1 "{SELECTORS[turn % len(SELECTORS)]}"' for turn in range(steps // 50))


def reordered(size, steps):
    """Rows go before others at random, with ten ranges around rows, two iterators among them, and an observer of the children."""
    first = [*wide(size)]
    for number in range(10):
        first += new_range(number, f"n1 {size * number // 10}", f"n1 {size * number // 10 + size // 20}")
    for number in range(2):
        first += ["p iter-new n1 element", *[f"p iter-next i{number}"] * (size // 3 * (number + 1))]
    first += ["p observer", "p observe o0 n1 childList", "p ."]
    pairs = zip(scattered(steps // 2, size), islice(scattered(steps // 2 + 5, size - 1), 5, None))
    return first, in_turns(f"p insert n1 n{row + 2} n{(row + 1 + other) % size + 2}" for row, other in pairs)


def component_rows(size, steps):
    """A component makes a new row in place of another one in its own tree, which has a slot for a child of the host."""
    first = ["p new element section", "p append n0 n1", "p new element b", "p append n1 n2", "p attach n1", "p .", "c1 new element slot",
             "c1 append m0 m1", "c1 new element ul", "c1 append m0 m2", *appended(size, 3, "c1", "m2"), "c1 ."]
    rows = list(range(3, size + 3))

    def others():
        for turn, place in enumerate(scattered(steps // 4, size)):
            node = size + 3 + turn
            yield "c1 new element li"
            yield f'c1 set m{node} class "row {turn}"'
            yield f"c1 insert m2 m{node} m{rows[place]}"
            yield f"c1 remove m{rows[place]}"
            rows[place] = node
    return first, others()


def boundary_at_start(size, steps):
    """The last child is removed and appended, with a range's ends in front of the first."""
    last = f"n{size + 1}"
    return [*wide(size), *new_range(0, "n1 0", "n1 0")], (f"p remove {last}" if turn % 2 == 0 else f"p append n1 {last}" for turn in range(steps))


def hosts_with_slots(size, steps):
    return slotted_hosts(size, steps // 2)


def host_with_slots(size, steps):
    return slotted_children(size, steps // 3)


# A kind beside browsers: its name; what it does, with `{}` where its sizes stand; the function of a size and of steps; the sizes, where None
# stands for an eighth and a half of the steps; and whether the peers' listeners ask the event for what the program prints of it.
Kind = namedtuple("Kind", "name says make sizes asks", defaults=(None, False))


def sizes_of(kind, steps):
    """The two sizes of a kind, where so many steps are made."""
    return kind.sizes or (steps // 8, steps // 2)


BESIDE = (
    Kind("append", "{} children appended to one list", appended_children),
    Kind("first", "children put first under {} ranges", first_under_ranges, (25, 100)),
    Kind("chain", "a chain of {} built from the bottom", chain_from_below, (4000, 16_000)),
    Kind("iterators", "{} iterators over 1,000 nodes under removals", removed_under_iterators, (25, 100)),
    Kind("text", "a Text edited under {} ranges", ranged_text, (125, 1000)),
    Kind("split", "a Text split and normalized under a range {} times", split_under_range),
    Kind("extract", "pieces of a paragraph of {} Texts extracted, put back", extracted, (25, 100)),
    Kind("listeners", "dispatches among {} listeners", among_listeners, (250, 2000)),
    Kind("listeners-ask", "the same, peers ask for the path", among_listeners, (250, 2000), True),
    Kind("up", "dispatches up {} nodes with a listener each", up_the_tree, (10, 50)),
    Kind("up-ask", "the same, peers ask for the path", up_the_tree, (10, 50), True),
    Kind("observer", "attribute records of {} elements, one observer", seen_by_one, (125, 1000)),
    Kind("observers", "attribute records, {} observers", seen_by_many, (125, 1000)),
    Kind("query", "queries over {} elements", asked, (500, 2000)),
    Kind("reorder", "{} rows reordered under ranges and an observer", reordered, (500, 2000)),
    Kind("component", "a component edits a list of {} rows in its tree", component_rows, (125, 1000)),
    Kind("boundary", "the last of {} children, a boundary at the start", boundary_at_start, (3750, 30_000)),
    Kind("host", "one host with {} slottables and 10 slots, moves", host_with_slots, (25, 100)),
    Kind("hosts", "{} hosts, moves among them", hosts_with_slots, (112, 900)),
)
