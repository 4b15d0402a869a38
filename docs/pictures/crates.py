"""The picture of the crates, in groups: a box stands on the rows below it. crates.txt says what each crate uses, and is compared."""
import textwrap

import svg

# The rows from the top, each with its groups: what a group is called, what it is for, and its crates.
ROWS = (
    (("the program", "reads lines, writes answers", ("domrun",)), ("the library for C", "sessions and documents in handles",
      ("dom_calls", "dom_c")),
     ("tests and callers", "what scripts cannot show", ("dom_tests", "dom_layer_tests", "dom_callers"))),
    (("the engine", "sessions, runs, and the theorems about runs", ("dom_engine",)),),
    (("commands", "what a line does: who may pass, the handlers, listeners, the ends of turns",
      ("dom_admission", "dom_node_commands", "dom_query_commands", "dom_commands")),),
    (("documents", "the Standard's mutation algorithms over all that owners have",
      ("dom_mutation", "dom_range_ops")), ("callbacks", "what is under way while owners are called", ("dom_callbacks",))),
    (("beside the trees", "cursors, selectors, ranges, slots, observers, event paths",
      ("dom_traversal", "dom_selectors", "dom_ranges", "dom_slots", "dom_observers", "dom_microtasks", "dom_path", "dom_dispatch")),
     ("lines", "bytes to commands, answers to text",
      ("dom_words", "dom_reader", "dom_printer", "dom_answers", "dom_streams", "dom_program")),),
    (("trees", "nodes in memory, attributes, the forest of all owners", ("node_arena", "dom_attributes", "dom_tree")),
     ("laws", "proved of the definitions, without code", ("dom_worlds", "dom_isolation", "dom_live", "dom_examples"))),
    (("laws of trees", "lists of names, and trees in which each name stands once", ("dom_laws",)),),
    (("the meaning", "the definitions after the DOM Standard, and the text of the protocol", ("dom_base", "dom_model", "dom_text")),),
)
WIDTH, LEFT, APART, HEAD, LETTER = 880, 24, 14, 66, 7.1


def uses_of(path):
    """What each crate of crates.txt uses of this repository."""
    with open(path, encoding="utf-8") as file:
        rows = [row.partition(":") for row in file if ":" in row and not row.startswith("#")]
    known = {name.split()[0]: names.split() for name, _, names in rows}
    return {name: [it for it in names if it in known] for name, names in known.items()}


def check(uses):
    """Raises an error where a crate is in no group or in two, or uses one that stands neither in its group nor below."""
    place = {}
    for number, row in enumerate(ROWS):
        for title, _, crates in row:
            for crate in crates:
                if crate in place or crate not in uses:
                    raise ValueError(f"{crate} is in two groups of the picture, or is no crate")
                place[crate] = (number, title)
    for crate, names in uses.items():
        if crate not in place:
            raise ValueError(f"{crate} is in no group of the picture")
        for name in names:
            if place[name][0] <= place[crate][0] and place[name] != place[crate]:
                raise ValueError(f"{crate} uses {name}, which does not stand below it in the picture")


def box_parts(group, left, top, width, height):
    """The box of a group."""
    title, says, crates = group
    left_edge = left + 14
    parts = [svg.box(left, top, width, height), svg.text(left_edge, top + 22, title, "strong")]
    parts.append(svg.text(left_edge, top + 39, says, "soft small"))
    rows = names_in_rows(crates, width)
    return parts + [svg.text(left_edge, top + 58 + 16 * number, row, "mono small") for number, row in enumerate(rows)]


def names_in_rows(crates, width):
    """The names of crates, in rows that fit into a width."""
    return textwrap.wrap("  ".join(crates), int((width - 28) / LETTER))


def crates_picture(path):
    """The picture, from the path of crates.txt."""
    uses = uses_of(path)
    check(uses)
    parts = [svg.text(LEFT, 28, f"The {len(uses)} crates, in groups", "strong"),
             svg.text(LEFT, 48, "A group stands on the rows below it, and uses nothing beside or above it.", "soft small")]
    top = HEAD
    for row in ROWS:
        shares = [max(3, len(crates)) for _, _, crates in row]
        room = WIDTH - 2 * LEFT - APART * (len(row) - 1)
        widths = [room * share / sum(shares) for share in shares]
        height = 52 + 16 * max(len(names_in_rows(crates, width)) for (_, _, crates), width in zip(row, widths))
        left = LEFT
        for group, width in zip(row, widths):
            parts += box_parts(group, left, top, width, height)
            left += width + APART
        top += height + APART
    said = "; ".join(f"{title}: {', '.join(crates)}" for row in ROWS for title, _, crates in row)
    return svg.picture(WIDTH, top + 10, "The crates, in groups that stand on each other", said, parts)
