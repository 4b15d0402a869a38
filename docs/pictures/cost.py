"""The picture of what a line costs: six kinds of work at their larger size, with a bar for each engine that was measured.

The figures are the table of docs/PERFORMANCE.md that has a column `domrun` beside those of most other engines, or what bench/peers.py
prints: a row has the kind, the lines, and then the microseconds per line of each engine, the smaller size before a stroke, and `*` behind
a figure where an engine was stopped.
"""
import math
import re

import svg

# Of each engine the colour of its bar.
COLOURS = {"domrun": "page", "Chromium": "inside", "Firefox": "third", "jsdom": "off"}
# What the names of the six kinds begin with, sizes left out.
SHOWN = ("children appended", "a Text edited", "dispatches among", "attribute records, observers", "queries over", "hosts, moves")
SIZES = re.compile(r"([\d,]+) / ([\d,]+)")
LEFT, ACROSS, BAR, APART, HEAD = 300, 400, 13, 18, 84


def cells_of(row):
    return [cell.strip() for cell in row.strip().strip("|").split("|")]


def larger_in(cell):
    """The figure of a cell at the larger size, as it stands there; nothing where there is none."""
    word = cell.split(" / ")[-1]
    return word if word[:1].isdigit() else ""


def number_of(figure):
    """The number that a figure stands for."""
    return float(figure.replace(",", "").replace("*", ""))


def table_of(path):
    """The engines' names, and of each kind that is shown its name and the engines' figures at the larger size."""
    with open(path, encoding="utf-8") as page:
        rows = [cells_of(row) for row in page if row.startswith("|")]
    heads = max((row for row in rows if "domrun" in row), key=lambda row: len(COLOURS.keys() & set(row)), default=None)
    if not heads:
        raise ValueError(f"{path} has no table with a column domrun")
    engines = [head for head in heads if head in COLOURS]
    of_kind = {SIZES.sub("", row[0]).strip().replace("  ", " "): row for row in rows if len(row) == len(heads)}
    kinds = []
    for shown in SHOWN:
        row = next((row for name, row in of_kind.items() if name.startswith(shown)), None)
        if row is None:
            raise ValueError(f"{path} has no row for {shown}")
        kinds.append((SIZES.sub(r"\2", row[0]), [larger_in(row[heads.index(engine)]) for engine in engines]))
    return engines, kinds


def kind_parts(top, kind, engines, x_of):
    """The bars of one kind, each with its figure behind it."""
    says, figures = kind
    parts = [svg.text(LEFT - 14, top + len(engines) * BAR / 2 + 4, says, "end small")]
    for number, (engine, figure) in enumerate(zip(engines, figures)):
        y = top + number * BAR
        if figure:
            end = x_of(number_of(figure))
            parts.append(svg.box(LEFT, y, end - LEFT, BAR - 3, COLOURS[engine], 2))
            parts.append(svg.text(end + 6, y + BAR - 4, figure, "tiny"))
    return parts


def cost_picture(path, name):
    """The picture, from the path of the figures and what they are called."""
    engines, kinds = table_of(path)
    every = [number_of(figure) for _, figures in kinds for figure in figures if figure]
    low, high = 10 ** math.floor(math.log10(min(every))), max(every)

    def x_of(micros):
        return LEFT + ACROSS * math.log10(micros / low) / math.log10(high / low)

    down = len(engines) * BAR + APART
    scale = "Each step of the scale is ten times the one before; * stopped after three seconds."
    parts = [svg.text(24, 28, "Microseconds for a line", "strong"), svg.text(24, 48, f"From {name}. {scale}", "soft small")]
    for number, engine in enumerate(engines):
        x = LEFT + number * 110
        parts += [svg.box(x, 61, 12, 10, COLOURS[engine], 2), svg.text(x + 18, 71, engine, "small")]
    bottom = HEAD + len(kinds) * down
    for power in range(round(math.log10(low)), math.floor(math.log10(high)) + 1):
        x = x_of(10.0 ** power)
        parts += [svg.line([(x, HEAD), (x, bottom)]), svg.text(x, bottom + 12, f"{10.0 ** power:g}", "soft tiny middle")]
    for number, kind in enumerate(kinds):
        parts += kind_parts(HEAD + 6 + number * down, kind, engines, x_of)
    said = "; ".join(f"{says}: {', '.join(map(' '.join, zip(engines, figures)))}" for says, figures in kinds)
    return svg.picture(LEFT + ACROSS + 70, bottom + 24, "What a line costs in six kinds of work, in microseconds", said, parts)
