"""A script in the making: its lines, its owners with what they have made (sketch.py), and choices among their nodes."""
import random
import re

from sketch import DATA, HOSTS, Node, Owner, Refused, refuse_where

NAME = re.compile(r"[A-Za-z_][A-Za-z0-9_-]*")
MADE_BY_NUMBER = {"iter-new": "i", "walk-new": "w", "observer": "o"}
OBSERVED = ("childList", "attributes", "characterData", "attributeOldValue", "characterDataOldValue", "filter")


def units_of(text: str) -> int:
    """The length of a string that is written with its quotation marks."""
    return len(re.sub(r"\\u....|\\.", "x", text[1:-1]))


class Draft:
    """The lines of a script so far, and what is known behind them. `chance` makes the choices."""

    def __init__(self, chance: random.Random) -> None:
        self.chance, self.lines, self.open = chance, [], None
        self.page = self.with_lists(Owner("p", Node("document")))
        self.owners, self.owner = [self.page], self.page

    @staticmethod
    def with_lists(owner: Owner) -> Owner:
        """An owner with lists of what it made and may name, and of the nodes at which it listens."""
        owner.ranges, owner.iterators, owner.walkers, owner.observers, owner.heard = [], [], [], [], []
        return owner

    def say(self, words: str) -> str | None:
        """Adds a line of the owner whose turn it is to the script, and gives what it makes, or None where it is refused."""
        self.lines.append(f"{self.owner.word} {words}")
        if words == ".":
            self.open = None
            return ""
        if self.owner is not self.page and self.open == "p":
            return None
        try:
            made = self.carry_out(*re.findall(r'"(?:[^"\\]|\\.)*"|\S+', words))
        except (Refused, KeyError):
            return None
        self.open = "p" if self.open == "p" else self.owner.word
        return made

    def carry_out(self, verb: str, *words: str) -> str:
        """What a command makes, in the trees that it changes. A KeyError says that there is no such name."""
        owner = self.owner
        if verb in MADE_BY_NUMBER:
            return owner.number(MADE_BY_NUMBER[verb])
        if verb in ("new", "document"):
            return self.make_node(*words) if words else owner.add(Node("document"))
        if verb.startswith("range-") or verb in ("delete", "extract", "insert-node"):
            return self.use_points(verb, *words)
        if verb == "observe":
            refuse_where(not any(word.startswith(OBSERVED) for word in words[2:]))
        changes = {
            "attach": self.attach, "append": lambda parent, name: (owner.check(parent, name, None), owner.insert(parent, name, None)),
            "insert": lambda parent, name, child: (owner.check(parent, name, child), owner.insert(parent, name, child)),
            "replace": owner.replace, "remove": owner.take, "normalize": owner.normalize, "adopt": self.adopt,
            "text": lambda name, text: owner.set_text(name, units_of(text)),
            "data": lambda name, text: self.replace_data(name, "0", str(owner.nodes[name].units), text),
            "replace-data": self.replace_data, "split": self.split,
        }
        if verb not in changes:
            return ""
        made = changes[verb](*words)
        return made if isinstance(made, str) else ""

    def make_node(self, kind: str, word: str = '""') -> str:
        refuse_where(kind == "element" and not NAME.fullmatch(word))
        if kind == "element":
            return self.owner.add(Node(kind, word))
        return self.owner.add(Node(kind, units=units_of(word)))

    def attach(self, name: str) -> str:
        owner, node = self.owner, self.owner.nodes[name]
        refuse_where(node.tag not in HOSTS or name in owner.hosts or owner.word.count(".") >= 7)
        owner.hosts.add(name)
        owner.attached += 1
        word = f"c{owner.attached}" if owner is self.page else f"{owner.word}.{owner.attached}"
        self.owners.append(self.with_lists(Owner(word, Node("shadow"))))
        return word

    def adopt(self, document: str, name: str) -> None:
        refuse_where(self.owner.nodes[document].kind != "document" or self.owner.nodes[name].kind in ("document", "shadow"))
        self.owner.take(name)

    def replace_data(self, name: str, offset: str, count: str, text: str) -> None:
        node = self.owner.nodes[name]
        refuse_where(node.kind not in DATA or int(offset) > node.units)
        self.owner.replace_data(name, int(offset), int(count), units_of(text))

    def split(self, name: str, offset: str) -> str:
        refuse_where(self.owner.nodes[name].kind != "text")
        return self.owner.split(name, int(offset))

    def use_points(self, verb: str, name: str = "", *words: str) -> str:
        owner = self.owner
        if verb == "range-new":
            name = owner.number("r")
            owner.points[name] = [(owner.letter + "0", 0)] * 2
            return name
        points = owner.points[name]
        if verb in ("range-start", "range-end"):
            owner.set_end(name, verb == "range-end", (words[0], int(words[1])))
        elif verb == "range-collapse":
            points[:] = [points[words[0] == "end"]] * 2
        elif verb == "range-drop":
            del owner.points[name]
        elif verb == "insert-node":
            owner.insert_node(name, words[0])
        elif verb in ("delete", "extract"):
            fragment = owner.add(Node("fragment")) if verb == "extract" else None
            owner.cut(name, fragment)
            return fragment or ""
        return ""

    # ---- choices

    def pick(self, *kinds: str) -> str:
        """A node of these kinds, mostly one that was made late or has children; now and then any node."""
        names = [name for name, node in self.owner.nodes.items() if not kinds or node.kind in kinds]
        if self.chance.random() < 0.01 or not names:
            names = list(self.owner.nodes)
        within = [name for name in names if self.owner.nodes[name].parent or self.owner.nodes[name].children]
        return self.chance.choice(within if within and self.chance.random() < 0.8 else names)

    def parent(self) -> str:
        """A node that may have children: a document seldom takes one more."""
        empty = [name for name, node in self.owner.nodes.items() if node.kind == "document" and not node.children]
        if empty and self.chance.random() < 0.2:
            return self.one(empty)
        return self.pick("element", "fragment", "shadow", *self.some_of(0.1, "document"))

    def child_of(self, parent: str) -> str:
        children = self.owner.nodes[parent].children
        return self.chance.choice(children) if children and self.chance.random() < 0.97 else self.pick()

    def offset(self, name: str) -> int:
        length = self.owner.length(name)
        return length + 1 if self.chance.random() < 0.02 else self.chance.randint(0, length)

    def one(self, values):
        return self.chance.choice(values)

    def some_of(self, share: float, *words: str) -> list[str]:
        return [word for word in words if self.chance.random() < share]

    def some(self, *words: str) -> list[str]:
        return self.some_of(0.5, *words)
