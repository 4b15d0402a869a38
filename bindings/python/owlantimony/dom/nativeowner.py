"""Owners whose nodes are objects of the extension module. What they remember of trees stands there."""
from __future__ import annotations

from typing import Any

from .. import session
from ..strings import quote
from .engine import Engine, Lines
from .errors import refusal_names, refusal
from .extension import engine_module
from .owner import Owner
from .treetext import attributes_of_first

__all__ = ["new_engine", "new_owner"]

_KINDS = {"#text": 3, "#comment": 8, "#document": 9, "#document-fragment": 11, "#shadow-root": 12}
_ELEMENT = 1


def new_engine(over: Lines | None) -> Engine:
    """Open a session, or take one that is open, and give the engine over it."""
    return Engine(over) if engine_module is None else NativeEngine(over)


def new_owner(engine: Engine, word: str) -> Owner:
    """Give an owner by its word."""
    return NativeOwner(engine, word) if isinstance(engine, NativeEngine) else Owner(engine, word)


class NativeEngine(Engine):
    """An engine over a session of the extension, which knows who has the turn."""

    __slots__ = ("native",)

    def __init__(self, over: Lines | None) -> None:
        self.native: Any = engine_module.Session(session.library_or_session() if over is None else over)
        super().__init__(self.native)

    @property
    def _turn(self) -> Any:
        return self.native.turn

    @_turn.setter
    def _turn(self, owner: Any) -> None:
        self.native.turn = owner


class NativeOwner(Owner):
    """The nodes of a page or a component, by their numbers in a table of the extension."""

    __slots__ = ("table",)

    def __init__(self, engine: NativeEngine, word: str) -> None:
        super().__init__(engine, word)
        self._next = None
        self.table: Any = engine_module.Nodes(engine.native, self, word, self.beside)

    # ---- what the extension calls

    def _begin(self) -> None:
        """End the turn of another owner."""
        self.engine.begin(self)

    def _refused(self, status: int, word: str, *nodes: Any) -> None:
        """Raise what a refusal of a command on nodes means."""
        command = " ".join([word, *(getattr(node, "_name", node) for node in nodes if node is not None)])
        raise refusal(refusal_names[status], f"{self.word} {command}", self.told_of(command))

    def _make_element(self, tag: str) -> Any:
        """Make an element by a line: here its refusal is raised."""
        return super().make_element(tag)

    def _make_data(self, kind: str, data: str) -> Any:
        """Make a Text or a Comment by lines, of data that one line has no room for."""
        return super().make_data(kind, data)

    def _set_attribute(self, node: Any, name: str, value: str) -> None:
        """Set an attribute by a line: here its refusal is raised."""
        super().set_attribute(node._name, name, value)

    def _drop_carried_of(self, node: Any, attribute: str) -> None:
        """Drop what is carried beside a node under an attribute's name."""
        self._drop_carried(node._name, attribute)

    # ---- names and objects

    def node(self, name: str) -> Any:
        return None if name == "null" else self.table.node(int(name[1:]))

    def _new_object(self, name: str, kind: str) -> Any:
        return self.table.node(int(name[1:]), _KINDS.get(kind, _ELEMENT), kind)

    def kind(self, name: str) -> str:
        kind: str = self.table.kind(int(name[1:]))
        return kind

    def known_kind(self, name: str) -> str | None:
        is_own = name[:1] == self.own and name[1:].isdigit()
        kind: str | None = self.table.known_kind(int(name[1:])) if is_own else None
        return kind

    # ---- making nodes

    def make(self, command: str, kind: str) -> Any:
        return self._new_object(self.ask(command), kind)

    def make_element(self, tag: str) -> Any:
        return self.table.make_element(tag)

    def make_data(self, kind: str, data: str) -> Any:
        return self.table.make_text(data) if kind == "text" else self.table.make_comment(data)

    def make_document(self) -> Any:
        self.table.note_documents()
        return super().make_document()

    # ---- reading trees

    def _link(self, name: str, which: int) -> str | None:
        number = self.table.links(int(name[1:]))[which]
        return None if number < 0 else f"{self.own}{number}"

    def parent(self, name: str) -> str | None:
        return self._link(name, 0)

    def children(self, name: str) -> tuple[str, ...]:
        return tuple(f"{self.own}{number}" for number in self.table.numbers(int(name[1:])))

    def child_nodes(self, name: str) -> list[Any]:
        children: list[Any] = self.table.children(int(name[1:]))
        return children

    def index(self, name: str) -> int:
        parent = self.table.links(int(name[1:]))[0]
        index: int = self.table.numbers(parent).index(int(name[1:]))
        return index

    def end_child(self, name: str, move: str) -> str | None:
        return self._link(name, 1 if move == "first" else 2)

    def sibling(self, name: str, step: int) -> str | None:
        return self._link(name, 4 if step > 0 else 3)

    def query(self, name: str, selectors: str) -> list[Any]:
        quote(selectors)
        found: list[Any] | None = self.table.query(int(name[1:]), selectors)
        return super().query(name, selectors) if found is None else found

    # ---- changing trees

    def insert(self, parent: str, node: str, child: str | None) -> None:
        self.ask(f"append {parent} {node}" if child is None else f"insert {parent} {node} {child}")

    def replace(self, parent: str, node: str, child: str) -> None:
        self.ask(f"replace {parent} {node} {child}")

    def remove(self, node: str) -> None:
        self.ask(f"remove {node}")

    def change(self, command: str) -> str:
        return self.ask(command)

    # ---- attributes

    def _known_attributes(self, name: str) -> list[str] | None:
        known: list[str] | None = self.table.attributes(int(name[1:]))
        return known

    def attributes(self, name: str) -> list[str]:
        known = self._known_attributes(name)
        if known is None:
            known = self.table.attributes(int(name[1:]), attributes_of_first(self.ask(f"tree {name}")))
        return known
