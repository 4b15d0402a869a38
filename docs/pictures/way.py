"""The picture of one line's way through the crates. The crate of each call is looked up in the sources, so that it stays true."""
import glob
import os
import re

import svg

WIDTH, HEIGHT, DOWN, LEFT, RIGHT = 270, 62, 34, 40, 470
# What a station is called, the item whose crate it stands in, the call there, and what happens.
DOWNWARD = (
    ("Source::read", "trait Source", "read", "at most 4,096 bytes at a time"),
    ("Splitter", "struct Splitter", "", "cuts the bytes into lines"),
    ("parse_command", "fn parse_command", "", "an owner's command, or a refusal"),
    ("Machine::answer", "struct Machine", "answer", "another's turn ends; refusals, in order"),
    ("Doc::insert", "struct Doc", "insert", "validity, then the plan's steps"),
    ("Forest::link_before", "struct Forest", "link_before", "one elementary change of the trees"),
    ("Arena::link_before", "struct Arena", "link_before", "the links of two cells and their parent"),
)
GIVES = ("bytes", "p append n0 n1", "append, by p, of n0 and n1", "the two nodes", "place n1 below n0", "link")
TOLD = (
    ("Slots", "struct Slots", "which slots changed"),
    ("Observers", "struct Observers", "who gets a record"),
    ("RangeTable", "struct RangeTable", "which ends of ranges move"),
)
BACK = (
    ("Sink::write", "trait Sink", "write", "the answer, before the next line is read"),
    ("put_reply", "fn put_reply", "", "the text of the answer"),
)


class Missing(Exception):
    """A station that stands in no crate any more."""


def crate_of(root, item, call):
    """The crate with this public item, and with this call if there is one."""
    for path in sorted(glob.glob(f"{root}/crates/*/src/**/*.rt", recursive=True)):
        with open(path, encoding="utf-8") as file:
            if re.search(rf"^pub {item}\b", file.read(), re.M):
                crate = os.path.relpath(path, f"{root}/crates").split(os.sep)[0]
                if not call or any(re.search(rf"\bfn {call}\b", text) for text in sources_of(root, crate)):
                    return crate
    raise Missing(f"no crate has `{item}`" + (f" with `{call}`" if call else ""))


def sources_of(root, crate):
    for path in glob.glob(f"{root}/crates/{crate}/src/**/*.rt", recursive=True):
        with open(path, encoding="utf-8") as file:
            yield file.read()


def station(x, y, name, crate, said):
    return [svg.box(x, y, WIDTH, HEIGHT), svg.text(x + 14, y + 22, name, "mono strong"),
            svg.text(x + WIDTH - 14, y + 22, crate, "mono page end"), svg.text(x + 14, y + 45, said, "soft small")]


def way_picture(root):
    """The picture, from the repository's folder."""
    parts = [svg.text(LEFT - 16, 28, "One line's way: p append n0 n1", "strong"),
             svg.text(LEFT - 16, 48, "Down on the left, with what is handed on; the answer goes back on the right.", "soft small")]
    top = [78 + number * (HEIGHT + DOWN) for number in range(len(DOWNWARD))]
    for number, (name, item, call, said) in enumerate(DOWNWARD):
        parts += station(LEFT, top[number], name, crate_of(root, item, call), said)
        if number:
            parts.append(svg.line([(LEFT + 60, top[number - 1] + HEIGHT), (LEFT + 60, top[number] - 2)], "page-edge", "to-page"))
            parts.append(svg.text(LEFT + 74, top[number] - 12, GIVES[number - 1], "mono small"))
    for number, (name, item, call, said) in enumerate(BACK):
        parts += station(RIGHT, top[number * 2 + 1 - number], name, crate_of(root, item, call), said)
    for number, (name, item, said) in enumerate(TOLD):
        y = top[3] + 48 + number * (HEIGHT + 12)
        parts += station(RIGHT, y, name, crate_of(root, item, ""), said)
        parts.append(svg.line([(LEFT + WIDTH, top[4] + HEIGHT / 2), (RIGHT - 3, y + HEIGHT / 2)], "edge", "to"))
    parts.append(svg.text(RIGHT, top[3] + 40, "each step tells", "soft small"))
    corner = RIGHT + 120
    parts.append(svg.line([(LEFT + WIDTH, top[3] + 16), (corner, top[3] + 16), (corner, top[2] + HEIGHT + 2)], "page-edge", "to-page"))
    parts.append(svg.line([(RIGHT + 120, top[2]), (RIGHT + 120, top[1] + HEIGHT + 2)], "page-edge", "to-page"))
    parts.append(svg.text(RIGHT + 132, top[2] - 12, "p ok", "mono small"))
    said = ("A line goes from the source through the reader, the machine, the document and the forest to the arena, "
            "and its answer through the printer to the sink.")
    return svg.picture(RIGHT + WIDTH + 30, top[-1] + HEIGHT + 26, "One line's way through the crates", said, parts)
