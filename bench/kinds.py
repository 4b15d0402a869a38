"""The kinds of work that the bench times, as generators of script lines (docs/PROTOCOL.md).

A plain kind takes a count and gives the lines of a whole script. A sized kind takes a size and a number of steps, and gives two runs of lines:
those that make the page, and those behind them that are timed. Those that run beside browsers stand in beside.py.
"""


def appended(count, first=2, owner="p", parent="n1", name="li"):
    """Elements appended below one parent; the first one gets that number."""
    for node in range(first, count + first):
        yield f"{owner} new element {name}"
        yield f"{owner} append {parent} {parent[0]}{node}"


def wide(count):
    """Elements appended below one parent."""
    yield "p new element ul"
    yield from appended(count)


def put_first(count, node, first):
    """Each new child, of which the first gets the number `node`, goes before the one that was first."""
    for number in range(node, node + count):
        yield "p new element li"
        yield f"p insert n1 n{number} n{first}"
        first = number


def front(count):
    """Each new child goes before the one that was first."""
    yield from wide(1)
    yield from put_first(count, 3, 2)


def down(count):
    """A chain built from the top: each new element goes below the last one."""
    yield "p new element a"
    for node in range(2, count + 2):
        yield "p new element a"
        yield f"p append n{node - 1} n{node}"


def up(count):
    """A chain built from the bottom: the chain so far goes below each new element."""
    yield "p new element a"
    for node in range(2, count + 2):
        yield "p new element a"
        yield f"p append n{node} n{node - 1}"


def moves(count):
    """One element goes to and fro between two parents."""
    yield "p new element a"
    yield "p new element b"
    yield "p new element c"
    for turn in range(count):
        yield f"p append n{1 + turn % 2} n3"


def attributes(count):
    """An element's fifty attributes are set again and again."""
    yield "p new element a"
    for turn in range(count):
        yield f'p set n1 a{turn % 50} "value {turn}"'


def data(count):
    """Code units of a Text are replaced."""
    yield 'p new text ""'
    for turn in range(count):
        yield f'p replace-data n1 {turn % 1000} 3 "abcd"'


def splits(count):
    """A Text is split, and its parent normalized."""
    yield from text_in_parent()
    yield from split_and_joined(count, 1)


def text_in_parent():
    """The lines that make a Text of ten code units below a parent."""
    yield "p new element p"
    yield 'p new text "abcdefghij"'
    yield "p append n1 n2"


def split_and_joined(count, offset):
    """The lines that split that Text, and join it again."""
    for _ in range(count):
        yield f"p split n2 {offset}"
        yield "p normalize n1"


def reads(count):
    """The parent of a node is asked for."""
    yield "p new element p"
    yield 'p new text "abc"'
    yield "p append n1 n2"
    for _ in range(count):
        yield "p parent n2"


def iterators(count):
    """An iterator goes over all elements of a wide tree."""
    yield from wide(count // 2)
    yield "p iter-new n1 element"
    for _ in range(count):
        yield "p iter-next i0"


def removals(count):
    """Elements are removed while ten iterators stand among them."""
    yield from wide(count)
    for _ in range(10):
        yield "p iter-new n1 element"
    for turn in range(count):
        yield f"p iter-next i{turn % 10}"
        yield f"p remove n{turn + 2}"


def queries(count):
    """A hundred elements are asked for by a selector."""
    yield from wide(100)
    for _ in range(count // 100):
        yield 'p query n1 "ul > li:not([lang|=en]), li.a li"'


PLAIN = (wide, front, down, up, moves, attributes, data, splits, reads, iterators, removals, queries)


def with_slots(hosts, slots, slottables):
    """The lines that make so many hosts below n1, each with slots named by letters and children that look for them in turn.

    A host is followed by its children. Where there are no slots the elements are made and none of them is a host."""
    yield "p new element body"
    yield "p append n0 n1"
    node = 1
    for host in range(1, hosts + 1):
        node += 1
        parent = node
        yield "p new element div"
        yield f"p append n1 n{parent}"
        for child in range(slottables):
            node += 1
            yield "p new element b"
            yield f'p set n{node} slot "{letter(child, slots)}"'
            yield f"p append n{parent} n{node}"
        if slots > 0:
            yield f"p attach n{parent}"
            yield "p ."
            for slot in range(1, slots + 1):
                yield f"c{host} new element slot"
                yield f'c{host} set m{slot} name "{letter(slot - 1, slots)}"'
                yield f"c{host} append m0 m{slot}"
            yield f"c{host} ."


def letter(number, slots):
    """The name of a slot."""
    return chr(97 + number % max(slots, 1))


def among(hosts, slots, steps):
    """The first child of each of these hosts with two children goes below another one, and then looks for another slot."""
    for turn in range(steps):
        child = 3 * (turn % hosts) + 3
        yield f"p append n{3 * ((turn * 11 + turn // hosts) % hosts) + 2} n{child}"
        yield f'p set n{child} slot "{letter(turn // hosts, slots)}"'


def slotted_hosts(hosts, steps=20_000):
    """Page children go to and fro among hosts with two slots each, and change their slot."""
    return with_slots(hosts, 2, 2), among(hosts, 2, steps)


def plain_parents(parents, steps=20_000):
    """The same without hosts."""
    return with_slots(parents, 0, 2), among(parents, 0, steps)


def slotted_children(slottables, steps=10_000):
    """The children of one host with ten slots leave it, look for another slot and come back."""
    return with_slots(1, 10, slottables), coming_and_going(slottables, steps)


def coming_and_going(slottables, steps):
    """The lines of that."""
    for turn in range(steps):
        child = 3 + turn * 7 % slottables
        yield f"p remove n{child}"
        yield f'p set n{child} slot "{letter(turn, 10)}"'
        yield f"p append n2 n{child}"


def ranged_text(ranges, steps=20_000):
    """A Text with so many ranges is replaced in part, again and again; the ranges start at all of its offsets in turn."""
    return with_ranges(ranges), (f'p replace-data n1 {turn * 7 % 900} 2 "ab"' for turn in range(steps))


def with_ranges(ranges):
    """The lines that make that Text of 1,000 code units and its ranges, each of ten code units."""
    yield f'p new text "{"x" * 1000}"'
    for number in range(ranges):
        at = number * 13 % 990
        yield from new_range(number, f"n1 {at}", f"n1 {at + 10}")


def new_range(number, start, end):
    """The lines that make a range with these ends."""
    yield "p range-new"
    yield f"p range-start r{number} {start}"
    yield f"p range-end r{number} {end}"


SIZED = ((slotted_hosts, (112, 900)), (plain_parents, (112, 900)), (slotted_children, (125, 1000)), (ranged_text, (125, 1000)))
