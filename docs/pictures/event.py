"""The picture of a closed tree and of the events that pass it: their whole paths, and what the page and the component are shown of them.

The script is the first one in README.md. All of it is what the program answers: the trees by `tree`, the paths by listeners on every node.
"""
import os
import sys

HERE = os.path.dirname(os.path.abspath(__file__))
sys.path.insert(0, os.path.join(HERE, "..", "..", "tools"))
import pages  # noqa: E402
import runs  # noqa: E402
import svg  # noqa: E402

ACROSS, DOWN, CHIP, ROUND = 126, 78, 104, 34
OWNERS = {"p": ("page", "the page"), "c1": ("inside", "c1")}


def label_of(node):
    """What a node is called in the picture, besides its name."""
    return f"<{node.tag}>" if node.kind == "element" else {"shadow": "shadow root"}.get(node.kind, node.kind)


def places_of(node, left, top, owner, found):
    """The places of a tree's nodes, each parent above the middle of its children; answers how many leaves it has."""
    leaves = 0
    for child in node.children:
        leaves += places_of(child, left + leaves * ACROSS, top + DOWN, owner, found)
    leaves = max(1, leaves)
    found[runs.whole_name(owner, node.name)] = (left + (leaves - 1) * ACROSS / 2, top, node)
    return leaves


def chip(x, y, name, below, owner, look=""):
    """A node: its name, and what it is, in its owner's colour."""
    kind = OWNERS[owner][0]
    return [svg.box(x - CHIP / 2, y, CHIP, ROUND, f"chip {kind}-edge {look}", 8), svg.text(x, y + 14, name, f"mono strong middle {kind}"),
            svg.text(x, y + 27, below, "soft tiny middle")]


def names_in(node, owner):
    """The whole names of a node and of those below it."""
    return {runs.whole_name(owner, node.name)}.union(*(names_in(child, owner) for child in node.children))


def tree_with(texts, owner, wanted):
    """The first tree of an owner that has one of the wanted nodes."""
    return next(tree for tree in map(runs.tree_of, texts) if names_in(tree, owner) & wanted)


def tree_parts(state, hosts, assigned):
    """The page's tree with the host, and the closed tree beside it."""
    found, left, parts = {}, 90, []
    for owner, texts in state.trees.items():
        tree = tree_with(texts, owner, {*hosts.values(), f"{owner}:m0"})
        wide = places_of(tree, left, 84 if owner == "p" else 84 + DOWN, owner, found)
        if owner != "p":
            deep = 1 + max(y for name, (_, y, _) in found.items() if runs.owner_of(name) == owner)
            parts.append(svg.box(left - 74, 84 + DOWN - 30, wide * ACROSS + 22, deep - 84 - DOWN + 80, "inside-edge dashed", 12))
            parts.append(svg.text(left - 62, 84 + DOWN - 12, "closed", "inside small"))
        left += wide * ACROSS + 130
    for name, (x, y, node) in found.items():
        for child in node.children:
            to_x, to_y, _ = found[runs.whole_name(runs.owner_of(name), child.name)]
            parts.append(svg.curves([(x, y + ROUND), (to_x, to_y - 1)], f"{OWNERS[runs.owner_of(name)][0]}-edge"))
    for owner, host in hosts.items():
        (x, y, _), (to_x, to_y, _) = found[host], found[f"{owner}:m0"]
        parts.append(svg.line([(x + CHIP / 2, y + ROUND / 2), (to_x - CHIP / 2 - 3, to_y + ROUND / 2)], "inside-edge dashed", "to-inside"))
        parts.append(svg.text((x + to_x) / 2 - 22, y + ROUND / 2 - 7, "attach", "soft small middle"))
    for slot, nodes in assigned.items():
        for name in nodes:
            (x, y, _), (to_x, to_y, _) = found[name], found[slot]
            parts.append(svg.line([(x + CHIP / 2, y + ROUND / 2), (to_x - CHIP / 2 - 3, to_y + ROUND / 2)], "off-edge", "to"))
            parts.append(svg.text(x + CHIP / 2 + 60, y + ROUND / 2 + 4 + (to_y - y) / 2 + 14, "assigned", "soft small middle"))
    for name, (x, y, node) in found.items():
        parts += chip(x, y, name, label_of(node), runs.owner_of(name))
    return parts, found, max(y for _, y, _ in found.values()) + ROUND


def event_parts(event, line, found, top):
    """One event: the whole path, and below it what each owner is shown, with a gap where a node is hidden from it."""
    parts = [svg.text(24, top, line, "mono strong")]
    rows = [("the whole path", [item["node"] for item in event.items], None)]
    for owner in OWNERS:
        rows.append((f"shown to {OWNERS[owner][1]}", event.seen[owner]["path"], event.seen[owner]["targets"][0]))
    for number, (title, shown, target) in enumerate(rows):
        y = top + 18 + number * 48
        parts.append(svg.text(24, y + 21, title, "soft small"))
        for place, item in enumerate(event.items):
            x, name = 240 + place * (CHIP + 18), item["node"]
            if place:
                parts.append(svg.line([(x - CHIP / 2 - 17, y + ROUND / 2), (x - CHIP / 2 - 3, y + ROUND / 2)], "edge", "to"))
            if name in shown:
                below = label_of(found[name][2]) + (" · target" if name == target else "")
                parts += chip(x, y, name, below, runs.owner_of(name), "thick" if name == target else "")
            else:
                parts += [svg.box(x - CHIP / 2, y, CHIP, ROUND, "off-edge", 8), svg.text(x, y + 21, "hidden", "off small middle")]
    return parts, top + 18 + len(rows) * 48 + 30


def event_picture(program, page):
    """The picture, from runs of the program on the first script of a page."""
    script = runs.Script(runs.Program(program), pages.blocks_of(page)[0].lines)
    count = len(script.lines)
    state = script.state(count)
    hosts = {owner: host for owner, host in script.owners(count).items() if host}
    assigned = {runs.whole_name(owner, slot): nodes for owner, slots in state.assigned.items() for slot, nodes in slots.items()}
    drawn, found, bottom = tree_parts(state, hosts, assigned)
    parts = [svg.text(24, 28, "The trees of the script, and what is shown of its event", "strong"),
             svg.text(24, 48, "As the program answers it. Blue is the page's, brown the component's.", "soft small"), *drawn]
    top, longest = bottom + 60, 0
    for number in range(count):
        for event in script.events(number, script.state(number)):
            drawn, top = event_parts(event, script.lines[number], found, top)
            parts += drawn
            longest = max(longest, len(event.items))
    said = "The page is shown no node of the closed tree; the component sees its own nodes and the page's."
    return svg.picture(240 + longest * (CHIP + 18) - CHIP / 2 + 6, top - 10, "A closed tree and an event", said, parts)
