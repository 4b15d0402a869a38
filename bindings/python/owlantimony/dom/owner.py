"""An owner of nodes, the page or a component: its nodes as objects, and what its commands make, change and answer."""
from __future__ import annotations

import re
from sys import intern
from typing import TYPE_CHECKING, Any
from weakref import WeakValueDictionary
from xml.dom import InvalidCharacterErr, WrongDocumentErr

from ..pickling import NotPickled
from ..strings import PIECE, pieces_of, quote
from .callbacks import Callbacks
from .engine import Engine
from .errors import LONGEST_LINE
from .memory import Memory
from .treetext import attributes_of_first, kind_of_first

if TYPE_CHECKING:
    from .node import Node

__all__ = ["ForeignNode", "NAME", "NODE_CLASSES", "Owner", "name_or_error"]

NODE_CLASSES: dict[str, type[Any]] = {}
"""The class of the nodes with a node name; that of elements under "element"."""

NAME = re.compile(r"[A-Za-z_][A-Za-z0-9_-]*")
"""What an element or an attribute can be called here."""

_ROOM = LONGEST_LINE - 200
_LEAVES = ("#text", "#comment")


class ForeignNode(NotPickled):
    """A node of another owner, as an event or a slot shows it: it may be compared by `==`, and nothing can be asked of it or done to it."""

    __slots__ = ("_engine", "_shown")

    def __init__(self, engine: Engine, shown: str) -> None:
        self._engine = engine
        self._shown = shown

    def __eq__(self, other: object) -> bool:
        shown, engine = getattr(other, "_shown", None), getattr(other, "_engine", None)
        return NotImplemented if shown is None else self._shown == shown and self._engine is engine

    def __hash__(self) -> int:
        return hash((id(self._engine), self._shown))

    def __repr__(self) -> str:
        return f"<ForeignNode {self._shown}>"


class Owner(NotPickled):
    """The nodes of a page or a component. A node is one object as long as it is held.

    A node's name never changes, and attributes change by `set` and `unset` alone: their names are kept as the commands made them.
    Parents and children are what the engine answered, until a change forgets it.
    """

    __slots__ = (
        "engine",
        "word",
        "own",
        "memory",
        "callbacks",
        "beside",
        "dropped",
        "has_documents",
        "_objects",
        "_kinds",
        "_attributes",
        "_walkers",
        "_next",
    )

    def __init__(self, engine: Engine, word: str) -> None:
        self.engine = engine
        self.word = word
        self.own = "n" if word == "p" else "m"
        self.memory = Memory()
        self.callbacks = Callbacks(self)
        self.beside: dict[str, Any] = {}
        """What a reader of documents carries beside nodes, by their names: each has `copy`, and `drop` for an attribute."""
        self.dropped: list[str] = []
        """Ranges that nobody holds any longer."""
        self.has_documents = False
        self._objects: WeakValueDictionary[str, Any] = WeakValueDictionary()
        self._kinds: dict[str, str] = {f"{self.own}0": "#document" if word == "p" else "#shadow-root"}
        self._attributes: dict[str, list[str]] = {}
        self._walkers: dict[str, str] = {}
        self._next: int | None = 1
        engine.owners[word] = self

    def ask(self, command: str) -> str:
        """Run a command of this owner, and give the value of its reply."""
        return self.engine.ask(self, command)

    def forget(self) -> None:
        """Forget what was read of trees and attributes."""
        self.memory.forget_all()
        self._attributes.clear()

    def told_of(self, command: str) -> str:
        """Give in words which nodes a command names in front of its first string."""
        kinds = [(name, kind) for name in command.split('"', 1)[0].split(" ") if (kind := self.known_kind(name)) is not None]
        return f" ({', '.join(f'{name} is {kind}' for name, kind in dict.fromkeys(kinds))})" if kinds else ""

    # ---- names and objects

    def node(self, name: str) -> Any:
        """Give the object of an own node, and None for "null"."""
        found = self._objects.get(name)
        return self._new_object(name, self.kind(name)) if found is None and name != "null" else found

    def _new_object(self, name: str, kind: str) -> Any:
        """Give an object for a node that has none."""
        made = self._objects[name] = (NODE_CLASSES.get(kind) or NODE_CLASSES["element"])._of(self, name)
        return made

    def seen(self, name: str) -> Any:
        """Give the object of a node that a line shows: an own one, a foreign one, or None."""
        return self.node(name) if name == "null" or name[0] == self.own else ForeignNode(self.engine, name)

    def nodes(self, names: str) -> list[Any]:
        """Give the objects of a list of own nodes."""
        return [self.node(name) for name in names_in(names)]

    def name_of(self, node: Node) -> str:
        """Give the name of an own node. Raise WrongDocumentErr for another owner's, and TypeError for what is no node."""
        if getattr(node, "_owner", None) is self and hasattr(node, "nodeType"):
            return node._name
        if hasattr(node, "_shown"):
            whose = "another owner's" if node._engine is self.engine else "another session's"
            raise WrongDocumentErr(f"foreign: {node!r} is {whose} node")
        raise TypeError(f"no node: {node!r}")

    def kind(self, name: str) -> str:
        """Give the node name of a node, as `nodeName` has it."""
        kind = self._kinds.get(name)
        if kind is None:
            kind = self._kinds[name] = intern(kind_of_first(self.ask(f"tree {name}")))
        return kind

    def known_kind(self, name: str) -> str | None:
        """Give the node name of a node, or None where it is not known yet, or the word names no node."""
        return self._kinds.get(name)

    # ---- making nodes

    def make(self, command: str, kind: str) -> Any:
        """Run a command that makes one node, and give it."""
        name = self.ask(command)
        self._kinds[name] = kind
        self._next = int(name[1:]) + 1
        return self._new_object(name, kind)

    def make_element(self, tag: str) -> Any:
        """Make an element without attributes."""
        element = self.make(f"new element {name_or_error(tag)}", intern(tag))
        self._attributes[element._name] = []
        return element

    def make_data(self, kind: str, data: str) -> Any:
        """Make a Text or a Comment, as `kind` says. Data that no line has room for go in by pieces."""
        quoted = quote(data)
        if len(quoted) <= _ROOM:
            return self.make(f"new {kind} {quoted}", f"#{kind}")
        first, *rest = pieces_of(data)
        node = self.make(f"new {kind} {first}", f"#{kind}")
        self._put_pieces(node._name, PIECE, rest)
        return node

    def make_document(self) -> Any:
        """Make one more document."""
        self.has_documents = True
        return self.make("document", "#document")

    def replace_data(self, name: str, offset: int, count: int, data: str) -> None:
        """Replace code units of a Text or Comment. Data that no line has room for go in by pieces, each with a record of its own."""
        quoted = quote(data)
        first, *rest = [quoted] if len(quoted) <= _ROOM else pieces_of(data)
        self.ask(f"replace-data {name} {offset} {count} {first}")
        self._put_pieces(name, offset + PIECE, rest)

    def _put_pieces(self, name: str, offset: int, pieces: list[str]) -> None:
        for piece in pieces:
            self.ask(f"replace-data {name} {offset} 0 {piece}")
            offset += PIECE

    def lose_count(self) -> None:
        """Note that a command made nodes of which the number is not known."""
        self._next = None

    # ---- reading trees

    def parent(self, name: str) -> str | None:
        """Give the name of a node's parent."""
        self.engine.begin(self)
        parents = self.memory.parents
        if name not in parents:
            answer = self.ask(f"parent {name}")
            parents[name] = None if answer == "null" else answer
        return parents[name]

    def children(self, name: str) -> tuple[str, ...]:
        """Give the names of a node's children."""
        self.engine.begin(self)
        children = self.memory.children.get(name)
        if children is None:
            children = () if self.kind(name) in _LEAVES else names_in(self.ask(f"children {name}"))
            self.memory.learn_children(name, children)
        return children

    def child_nodes(self, name: str) -> list[Any]:
        """Give the objects of a node's children."""
        return [self.node(child) for child in self.children(name)]

    def query(self, name: str, selectors: str) -> list[Any]:
        """Give the elements below a node that match. Raise SyntaxErr for text that is no selector here."""
        return self.nodes(self.ask(f"query {name} {quote(selectors)}"))

    def index(self, name: str) -> int:
        """Give the index of a node that has a parent."""
        parent = self.parent(name)
        assert parent is not None
        self.children(parent)
        return self.memory.place(parent, name)

    def end_child(self, name: str, move: str) -> str | None:
        """Give the name of a node's first or last child, as `move` says."""
        self.engine.begin(self)
        if name not in self.memory.children and self.memory.asks_alone(name):
            return self._walk(name, name, move)
        children = self.children(name)
        return None if not children else children[0 if move == "first" else -1]

    def sibling(self, name: str, step: int) -> str | None:
        """Give the name of a node's next sibling, where `step` is 1, or previous one, where it is -1."""
        parent = self.parent(name)
        if parent is None:
            return None
        if parent not in self.memory.children and self.memory.asks_alone(parent):
            return self._walk(parent, name, "next-sibling" if step > 0 else "previous-sibling")
        children = self.children(parent)
        at = self.memory.place(parent, name) + step
        return children[at] if 0 <= at < len(children) else None

    def _walk(self, root: str, node: str, move: str) -> str | None:
        """Move a walker below `root` from a node, and give where it comes to."""
        if root not in self._walkers:
            self._walkers[root] = self.ask(f"walk-new {root} all")
        self.ask(f"walk-set {self._walkers[root]} {node}")
        answer = self.ask(f"walk {self._walkers[root]} {move}")
        return None if answer == "null" else answer

    def path(self, name: str) -> list[str]:
        """Give the names from a node's root down to the node."""
        path = []
        at: str | None = name
        while at is not None:
            path.append(at)
            at = self.parent(at)
        path.reverse()
        return path

    # ---- changing trees

    def insert(self, parent: str, node: str, child: str | None) -> None:
        """Insert a node before a child, or last."""
        self.ask(f"append {parent} {node}" if child is None else f"insert {parent} {node} {child}")
        self._has_moved(node)
        self.memory.forget_children(parent)

    def replace(self, parent: str, node: str, child: str) -> None:
        """Put a node in the place of a child."""
        self.ask(f"replace {parent} {node} {child}")
        self._has_moved(node)
        self.memory.forget_parent(child)
        self.memory.forget_children(parent)

    def remove(self, node: str) -> None:
        """Take a node out of its parent."""
        self.ask(f"remove {node}")
        self.memory.forget_parent(node)

    def change(self, command: str) -> str:
        """Run a command that moves more nodes than it names."""
        value = self.ask(command)
        self.memory.forget_all()
        return value

    def _has_moved(self, node: str) -> None:
        if self.kind(node) == "#document-fragment":
            self.memory.forget_all()
        else:
            self.memory.forget_parent(node)

    def set_text(self, name: str, text: str) -> None:
        """Put one Text, or nothing, in the place of an element's or a fragment's children."""
        quoted = quote(text)
        if len(quoted) > _ROOM:
            node = self.make_data("text", text)
            self.change(f'text {name} ""')
            self.insert(name, node._name, None)
            return
        self.change(f"text {name} {quoted}")
        if text and self._next is not None:
            self._kinds[f"{self.own}{self._next}"] = "#text"
            self._next += 1

    # ---- attributes

    def attributes(self, name: str) -> list[str]:
        """Give the names of an element's attributes, in order."""
        attributes = self._attributes.get(name)
        if attributes is None:
            attributes = self._attributes[name] = attributes_of_first(self.ask(f"tree {name}"))
        return attributes

    def set_attribute(self, name: str, attribute: str, value: str) -> None:
        """Give an attribute a value. What was carried under this name is dropped."""
        self.ask(f"set {name} {name_or_error(attribute)} {quote(value)}")
        self._drop_carried(name, attribute)
        known = self._known_attributes(name)
        if known is not None and attribute not in known:
            known.append(attribute)

    def _known_attributes(self, name: str) -> list[str] | None:
        return self._attributes.get(name)

    def unset_attribute(self, name: str, attribute: str) -> None:
        """Take an attribute away, and what was carried under this name."""
        if attribute in self.attributes(name):
            self.ask(f"unset {name} {attribute}")
            self.attributes(name).remove(attribute)
        self._drop_carried(name, attribute)

    def _drop_carried(self, name: str, attribute: str) -> None:
        beside = self.beside.get(name)
        if beside is not None:
            beside.drop(attribute)


def name_or_error(name: str) -> str:
    """Give a name that an element or an attribute can have. Raise InvalidCharacterErr for another."""
    if not isinstance(name, str):
        raise TypeError(f"a name is a string: {name!r}")
    if not NAME.fullmatch(name):
        raise InvalidCharacterErr(f"invalid-character: a name is a letter or '_', then letters, digits, '-' and '_': {name[:200]!r}")
    return name


def names_in(text: str) -> tuple[str, ...]:
    """Give the names of a list."""
    return tuple(text[1:-1].split(",")) if len(text) > 2 else ()
