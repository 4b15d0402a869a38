#!/usr/bin/env python3
"""Random scripts of the protocol, which stay mostly accepted and reach deep states in every family of commands.

Usage: harness/scripts.py [--seed S] [--lines N] [--count K] [--coverage [--program DOMRUN]]

Prints K scripts, or with --coverage how often each command, answer and refusal came in them, which the program tells. Script number i of a
seed is the same on every machine, and wants no program: sketch.py follows what is made and how the trees stand.
"""
import argparse
import collections
import os
import random
import re
import sys

import engines
import judging
from draft import Draft

ELEMENTS = ("div", "p", "b", "i", "span", "ul", "li", "section", "x-a", "hr", "DIV", "article")
SLOTTED = ("div", "section", "article", "span", "x-a", "p")
ATTRIBUTES = ("id", "class", "name", "slot", "lang", "K", "a_1")
VALUES = ("", "a", "b", "a b", "x", "en-GB", "A", "  a", "b-c", "a\\u00e9", "\\ud83d")
TEXTS = ("", "a", "bc", "def", "x y", "\\ud83d\\ude00", "\\\"", "ghij\\\\")
TYPES = ("e", "e", "click", "slotchange")
SHOWS = ("all", "element", "text", "comment", "element,text", "element,comment", "text,comment", "document,fragment", "element,fragment")
MOVES = ("parent", "first", "last", "next", "previous", "next-sibling", "previous-sibling", "next", "next")


class Maker(Draft):
    """Makes one script, by families of commands."""

    def __init__(self, chance):
        super().__init__(chance)
        self.weights = {family: chance.choice((0.3, 1, 1, 3)) * weight for family, (weight, _) in FAMILIES.items()}

    def make(self):
        tag = self.one(ELEMENTS if self.owner is self.page or self.chance.random() < 0.5 else ("slot",))
        tag = tag if self.chance.random() < 0.99 else "1a"
        self.say(f"new element {tag}")

    def make_other(self):
        text = self.one(TEXTS)
        kind = self.one(("text", "text", "text", "comment", "fragment", "document"))
        if kind == "document":
            self.say("document")
        elif kind == "fragment":
            self.say("new fragment")
        else:
            self.say(f'new {kind} "{text}"')

    def place(self):
        """A node without a parent goes below another tree, or any node goes anywhere."""
        parent = self.parent()
        loose = [name for name, node in self.owner.nodes.items()
                 if not node.parent and node.kind not in ("document", "shadow") and name != self.owner.root(parent)]
        if self.owner.nodes[parent].kind == "document":
            loose = [name for name in loose if self.owner.nodes[name].kind in ("element", "comment")]
        node = self.one(loose) if loose and self.chance.random() < 0.75 else self.pick("element", "text", "comment", "fragment")
        if self.owner.nodes[parent].children and self.chance.random() < 0.5:
            self.say(f"insert {parent} {node} {self.child_of(parent)}")
        else:
            self.say(f"append {parent} {node}")

    def move(self):
        verb, parent = self.one(("replace", "replace", "remove", "adopt", "normalize", "text")), self.parent()
        if verb == "replace":
            parent = self.one([name for name, node in self.owner.nodes.items() if node.children] or [parent])
            node = self.pick("element", "text", "comment", "fragment")
            self.say(f"replace {parent} {node} {self.child_of(parent)}")
        elif verb == "remove":
            node = self.pick("element", "text", "comment")
            self.say(f"remove {node}")
        elif verb == "adopt":
            node = self.pick("element", "text", "comment", "fragment")
            self.say(f"adopt {self.pick('document')} {node}")
        elif verb == "normalize":
            self.say(f"normalize {parent}")
        elif self.chance.random() < 0.4:
            node = self.pick("element", "element", "text")
            self.say(f'text {node} "{self.one(TEXTS)}"')

    def write(self):
        verb = self.one(("data", "replace-data", "replace-data", "split"))
        if not any(node.kind == "text" for node in self.owner.nodes.values()):
            return self.make_other()
        node = self.pick("text") if verb == "split" else self.pick("text", "text", "comment")
        if verb == "data":
            self.say(f'data {node} "{self.one(TEXTS)}"')
        elif verb == "split":
            self.say(f"split {node} {self.offset(node)}")
        else:
            self.say(f'replace-data {node} {self.offset(node)} {self.chance.randint(0, 4)} "{self.one(TEXTS)}"')
        return None

    def name(self):
        element, name = self.pick("element"), self.one(ATTRIBUTES)
        if self.chance.random() < 0.75:
            self.say(f'set {element} {name} "{self.one(VALUES)}"')
        else:
            self.say(f"unset {element} {name}")

    def slot(self):
        """What changes the assignment of slots."""
        if self.owner is self.page:
            self.say(f'set {self.pick("element")} slot "{self.one(("", "a", "b"))}"')
        else:
            slots = [name for name, node in self.owner.nodes.items() if node.tag == "slot"] or ["m0"]
            line = self.one((f"assigned {self.one(slots)}", f'set {self.one(slots)} name "{self.one(("", "a", "b"))}"', "append"))
            if line == "append":
                node = self.one(slots)
                self.say(f"append {self.one(('m0', self.parent()))} {node}")
            else:
                self.say(line)

    def read(self):
        node = self.pick()
        self.say(self.one((f"tree {node}", f"tree {self.owner.root(node)}", f"attr {self.pick('element')} {self.one(ATTRIBUTES)}",
                           f"parent {node}", f"docof {node}", f"children {self.parent()}", f"contains {node} {self.pick()}", f"connected {node}",
                           f"shadow-root {self.pick('element')}", f"slot-of {self.pick('element', 'text')}")))

    def make_range(self):
        value = self.say("range-new")
        if value is not None:
            self.owner.ranges.append(value)
            top = self.owner.root(self.pick("element", "text"))
            self.set_range(value, top)

    def set_range(self, name, top):
        nodes = sorted(self.owner.below(top))
        for end in self.one((("start", "end"), ("end", "start"))):
            node = self.one(nodes)
            self.say(f"range-{end} {name} {node} {self.offset(node)}")

    def use_range(self):
        if not self.owner.ranges:
            return self.make_range()
        name = self.one(self.owner.ranges)
        verb = self.one(("set", "set", "get", "get", "get", "text", "collapse", "drop"))
        if verb == "set":
            self.set_range(name, self.owner.root(self.pick()))
        elif verb == "drop":
            if self.chance.random() < 0.2:
                self.say(f"range-drop {name}")
                self.owner.ranges.remove(name)
        else:
            self.say(f"range-collapse {name} {self.one(('start', 'end'))}" if verb == "collapse" else f"range-{verb} {name}")
        return None

    def cut_range(self):
        if not self.owner.ranges:
            return self.make_range()
        name, verb = self.one(self.owner.ranges), self.one(("delete", "extract", "insert-node", "insert-node"))
        node = f' {self.pick("element", "text", "comment", "fragment")}' if verb == "insert-node" else ""
        self.say(f"{verb} {name}{node}")
        if self.chance.random() < 0.5:
            self.say(f"range-get {name}")
        return None

    def traverse(self):
        kind = self.one(("iter", "walk"))
        cursors = self.owner.iterators if kind == "iter" else self.owner.walkers
        if not cursors or self.chance.random() < 0.15:
            named = self.one(("", "", f" skip={self.one(ELEMENTS)}", f" reject={self.one(ELEMENTS)}"))
            value = self.say(f"{kind}-new {self.parent()} {self.one(SHOWS)}{named}")
            return cursors.append(value) if value else None
        name = self.one(cursors)
        for _ in range(self.chance.randint(1, 4)):
            if kind == "iter":
                self.say(f"iter-{self.one(('next', 'next', 'next', 'prev', 'at'))} {name}")
            elif self.chance.random() < 0.15:
                self.say(f"walk-set {name} {self.pick()}")
            else:
                self.say(self.one((f"walk-at {name}", f"walk {name} {self.one(MOVES)}", f"walk {name} {self.one(MOVES)}")))
        return None

    def compound(self, plain=False):
        parts = [self.one(("", "", "*", self.one(ELEMENTS)))]
        for _ in range(self.chance.randint(0 if parts[0] else 1, 2)):
            operator = self.one(("=", "~=", "|=", "^=", "$=", "*="))
            value = self.one(("a", "'a'", "''", "\\\"a b\\\"", "en", "b-c", "' '"))
            parts.append(self.one((f"#{self.one(('a', 'b'))}", f".{self.one(('a', 'b', 'A'))}", f"[{self.one(ATTRIBUTES)}]",
                                   f"[ {self.one(ATTRIBUTES)}{operator} {value}]", ":first-child", ":last-child",
                                   "" if plain else f":not({self.compound(True)})")))
        return "".join(parts) or "*"

    def select(self):
        text = self.compound()
        for _ in range(self.one((0, 0, 1, 1, 2))):
            text += self.one((" ", ">", " + ", "~ ", " , ")) + self.compound()
        text = text if self.chance.random() < 0.97 else text + self.one((">", ":hover", "::a", "[", ","))
        if self.chance.random() < 0.6:
            self.say(f'query {self.parent()} "{text}"')
        else:
            self.say(f'matches {self.pick("element")} "{text}"')

    def hear(self):
        node, event = self.one((self.pick(), self.parent(), self.owner.root(self.pick()))), self.one(TYPES)
        label = f"{self.one('abcd')}{node}"
        self.owner.heard.append(node)
        if self.chance.random() < 0.85:
            action = self.one(("log",) * 6 + ("stop", "stop-now", "cancel"))
            once = "once" if self.chance.random() < 0.4 else "capture1"
            self.say(" ".join(["listen", node, event, label, action, *self.some("capture", once, "passive")]).replace(" capture1", ""))
        else:
            self.say(" ".join(["unlisten", node, event, label, *self.some("capture")]))

    def fire(self):
        below = sorted(self.owner.below(self.one(self.owner.heard))) if self.owner.heard else [self.pick()]
        target = self.one((self.pick("element", "text"), self.one(below), self.one(below)))
        words = [f"dispatch {target} {self.one(TYPES)}", *self.some_of(0.7, "bubbles"),
                 *self.some("cancelable", "composed")]
        if self.chance.random() < 0.3:
            words.append(f"related {self.pick()}")
        self.say(" ".join(words))

    def observe(self):
        owner = self.owner
        if not owner.observers or self.chance.random() < 0.1:
            value = self.say("observer")
            return owner.observers.append(value) if value else None
        name, verb = self.one(owner.observers), self.one(("observe", "observe", "observe", "take", "disconnect"))
        if verb == "observe":
            words = self.some("childList", "attributes", "characterData", "subtree", "attributeOldValue", "characterDataOldValue")
            filtered = [] if self.chance.random() < 0.8 else [f"filter={self.one(ATTRIBUTES)},{self.one(ATTRIBUTES)}"]
            node = self.one((self.pick(), self.owner.root(self.pick()), self.parent()))
            self.say(" ".join([f"observe {name} {node}", *words, *filtered]))
        elif verb == "take" or self.chance.random() < 0.2:
            self.say(f"{verb} {name}")
        return None

    def queue(self):
        self.say(f"micro {self.one('klm')}")

    def end(self):
        """Ends the turn, and another owner may have the next one."""
        self.say(".")
        self.owner = self.one(self.owners + [self.page])

    def host(self):
        """Attaches a component: to an element of the page, or of another component."""
        if len(self.owners) > 8 or self.owner is not self.page and self.chance.random() < 0.3:
            return self.slot()
        hosts = [name for name, node in self.owner.nodes.items() if node.tag in SLOTTED]
        return self.say(f"attach {self.one(hosts or list(self.owner.nodes))}")

    def begin(self):
        """The first lines: a few nodes, and in every second script a host with a child and components with slots, one in another."""
        for _ in range(3):
            self.make()
        self.place()
        if self.chance.random() < 0.5:
            return
        host = self.say("new element div")
        self.say(f"append {self.pick('document')} {host}")
        self.host()
        self.place()
        self.say(".")
        for component in self.owners[1:]:
            self.begin_component(component)

    def begin_component(self, component):
        """The first lines of a component: a slot, which in every second one stands in a host of a component inside, and so on."""
        self.owner, host = component, "m0"
        if self.chance.random() < 0.7:
            host = self.say("new element div")
            self.say(f"append m0 {host}")
            self.host()
        slot = self.say("new element slot")
        self.say(f"append {host} {slot}")
        self.hear()
        for inner in [owner for owner in self.owners if owner.word.rpartition(".")[0] == component.word]:
            self.begin_component(inner)

    def stray(self):
        """A line that is refused."""
        line = self.one(("remove n999", "tree m7", "append m0 c1:m1", "tre n0", "range-get r77", "new  fragment", 'new text "', "take o9",
                         "append n0", "tree c1:m0", "walk w0 up", "iter-new n0 text,element", "dispatch n0 a b", "observe o0 n0"))
        self.lines.append(f"{self.owner.word} {line}")

    def script(self, lines):
        """The lines of the script: the first ones, and then families by their weights."""
        self.begin()
        while len(self.lines) < lines:
            families = list(self.weights)
            family = self.chance.choices(families, [self.weights[name] for name in families])[0]
            FAMILIES[family][1](self)
        return self.lines


FAMILIES = {
    "make": (7, Maker.make), "make_other": (6, Maker.make_other), "place": (16, Maker.place), "move": (7, Maker.move),
    "write": (4, Maker.write), "name": (5, Maker.name), "slot": (3, Maker.slot), "read": (4, Maker.read),
    "make_range": (1.5, Maker.make_range), "use_range": (5, Maker.use_range), "cut_range": (3, Maker.cut_range),
    "traverse": (5, Maker.traverse), "select": (3, Maker.select), "hear": (7, Maker.hear), "fire": (5, Maker.fire),
    "observe": (6, Maker.observe), "queue": (1, Maker.queue), "end": (7, Maker.end), "host": (2, Maker.host), "stray": (0.4, Maker.stray),
}


def random_scripts(seed, count, lines, first=0):
    """The scripts of a seed, from number `first` on."""
    makers = (Maker(random.Random(f"{seed} {number}")) for number in range(first, first + count))
    return ["".join(line + "\n" for line in maker.script(lines)) for maker in makers]


def print_coverage(made, outputs):
    """How often each command came, was accepted and was refused for what, and how often each kind of line came before an answer."""
    commands, before = collections.defaultdict(collections.Counter), collections.Counter()
    for script, output in zip(made, outputs):
        lines = iter(script.splitlines())
        for line in output.splitlines():
            reply = judging.REPLY.match(line)
            if reply:
                commands[next(lines).split(" ")[1]]["ok" if reply[1] == "ok" else line.split("! ")[1]] += 1
            else:
                before[line.split(" ")[1] + (" " + line.split(" ")[3] if " record " in line else "")] += 1
    for command, counts in sorted(commands.items()):
        print(f"{command:16} {sum(counts.values()):7}  " + "  ".join(f"{name} {count}" for name, count in counts.most_common()))
    print("lines before answers: " + "  ".join(f"{name} {count}" for name, count in before.most_common()))
    words = [{line.split(" ")[0] for line in script.splitlines()} for script in made]
    depths = collections.Counter(max(word.count(".") + word.startswith("c") for word in of_script) for of_script in words)
    print("scripts by the depth of their components: " + "  ".join(f"{depth}: {count}" for depth, count in sorted(depths.items())))


def main():
    parser = argparse.ArgumentParser(description=__doc__.splitlines()[0])
    parser.add_argument("--program", default=engines.PROGRAM, help="the built domrun, for --coverage")
    parser.add_argument("--seed", default="1", help="which scripts: number i of a seed is the same everywhere")
    parser.add_argument("--lines", type=int, default=100, help="of each script")
    parser.add_argument("--count", type=int, default=1, help="how many scripts")
    parser.add_argument("--coverage", action="store_true", help="print counts of commands and answers, in place of the scripts")
    words = parser.parse_args()
    made = random_scripts(words.seed, words.count, words.lines)
    if not words.coverage:
        sys.stdout.write("".join(made))
        return
    try:
        print_coverage(made, engines.Program(words.program).run(made))
    except engines.Missing as missing:
        raise SystemExit(str(missing)) from None


if __name__ == "__main__":
    main()
