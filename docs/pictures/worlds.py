"""The picture of a trace and its two worlds: two scripts with one full trace for the page, and what the page is told in both.

The scripts are worlds.a and worlds.b of this folder. The small document machine in examples/interference, which is written apart from the
engine, gives their full traces and what the page is told.
"""
import os
import sys

HERE = os.path.dirname(os.path.abspath(__file__))
sys.path.insert(0, os.path.join(HERE, "..", "..", "examples", "interference"))
import svg  # noqa: E402
from machine import full_trace  # noqa: E402

WIDE, APART, LEFT, TOP, DOWN = 322, 34, 18, 64, 19
SAID = ("Two scripts with the same lines of the page and other lines of a component. Their full traces are the same: the lines of the "
        "page, one click that leaves the closed tree, and where the component stops the page's own click. So the page receives the "
        "same.")


def script_of(name):
    """The lines of a script of this folder."""
    with open(os.path.join(HERE, name), encoding="ascii") as file:
        return file.read().splitlines()


def stopped(reached):
    """Where others stopped an event."""
    return "others do not stop it" if reached is None else f"others stop it after visit {reached} at the page's nodes"


def item_texts(item):
    """What the picture says of an item of a full trace: texts, each with its look."""
    if item[0] == "line":
        records = [text for record in item[2]
                   for text in (f"{stopped(record.reached)},", "and cancel it" if record.cancelled else "and do not cancel it")]
        return [(item[1], "mono page"), *((record, "small third") for record in records)]
    _, (_, number), event, reached = item
    words = ", ".join(word for word in ("bubbles", "cancelable") if getattr(event, word))
    return [(f"a {event.type} leaves the closed tree at n{number}", "small third strong"),
            (f"{words}; {stopped(reached)}", "small third")]


def column(number, title, texts):
    """A column of texts with a title, and the place below it."""
    x, height = LEFT + number * (WIDE + APART), DOWN * len(texts) + 16
    parts = [svg.text(x + 2, TOP - 10, title, "strong"), svg.box(x, TOP, WIDE, height)]
    return parts + [svg.text(x + 12, TOP + 21 + DOWN * at, words, look) for at, (words, look) in enumerate(texts)], TOP + height


def lines_with_look(script):
    """The lines of a script in the colours of their owners."""
    return [(line, f"mono {'page' if line.startswith('p ') else 'inside'}") for line in script]


def worlds_picture():
    """The whole picture; an error if the two scripts do not have one full trace and one output of the page."""
    scripts = [script_of("worlds.a"), script_of("worlds.b")]
    (trace, _, told), (other_trace, _, other_told) = (full_trace(script, lambda owner: owner == "p") for script in scripts)
    told, other_told = ([line for line in lines if line.startswith("p ")] for lines in (told, other_told))
    if trace != other_trace or told != other_told:
        raise ValueError("the two scripts differ in their full traces, or in what the page is told")
    items = [text for item in trace for text in item_texts(item)]
    columns = [column(0, "one script", lines_with_look(scripts[0])), column(1, "the full trace of both, for the page", items),
               column(2, "another script", lines_with_look(scripts[1]))]
    middle, below = LEFT + WIDE + APART, max(bottom for _, bottom in columns) + 26
    parts = [part for found, _ in columns for part in found]
    parts += [svg.line([(middle - APART + 4, TOP + 60), (middle - 4, TOP + 60)], "edge", "to"),
              svg.line([(middle + WIDE + APART - 4, TOP + 60), (middle + WIDE + 4, TOP + 60)], "edge", "to"),
              svg.line([(middle + WIDE / 2, columns[1][1]), (middle + WIDE / 2, below + 4)], "page-edge", "to-page")]
    events = [line for line in told if line.startswith("p event")]
    heard = [(f"{len(told) - len(events)} replies, the last one {told[-1]}", "small"), *((line, "mono page") for line in events)]
    width = 3 * WIDE + 2 * APART
    parts += [svg.text(LEFT + 2, below, "what the page receives, in both", "strong"),
              svg.box(LEFT, below + 10, width, DOWN * len(heard) + 16)]
    parts += [svg.text(LEFT + 12, below + 31 + DOWN * at, words, look) for at, (words, look) in enumerate(heard)]
    parts.append(svg.text(LEFT + 2, 28, "Two worlds that the page can't tell apart", "strong"))
    return svg.picture(width + 2 * LEFT, below + DOWN * len(heard) + 44, "A trace and its two worlds", SAID, parts)
