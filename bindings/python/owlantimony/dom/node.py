"""Nodes: what all kinds have."""
from __future__ import annotations

from collections.abc import Callable, Iterator, Sequence
from typing import TYPE_CHECKING, Any
from xml.dom import NotFoundErr

from ..session import ClosedError, OutOfMemoryError, WrongThreadError
from .events import EventTarget
from .extension import native
from .treetext import tokens

if TYPE_CHECKING:
    from .owner import Owner

__all__ = ["ChildNodes", "Node"]


class ChildNodes(Sequence[Any]):
    """The children of a node, as they are at each moment that one asks (DOM Standard, #dom-node-childnodes)."""

    __slots__ = ("_parent",)

    def __init__(self, parent: Node) -> None:
        self._parent = parent

    def _names(self) -> tuple[str, ...]:
        return self._parent._owner.children(self._parent._name)

    def __len__(self) -> int:
        return len(self._names())

    def __getitem__(self, at: Any) -> Any:
        node = self._parent._owner.node
        return [node(name) for name in self._names()[at]] if isinstance(at, slice) else node(self._names()[at])

    def __iter__(self) -> Iterator[Any]:
        """Give the children that are there when the loop begins."""
        return iter(self._parent._owner.child_nodes(self._parent._name))

    def __eq__(self, other: object) -> bool:
        if not isinstance(other, (ChildNodes, list, tuple)):
            return NotImplemented
        return list(self) == list(other)

    def __repr__(self) -> str:
        return repr(list(self))

    @property
    def length(self) -> int:
        """How many children there are."""
        return len(self)

    def item(self, index: int) -> Any:
        """Give a child by its index, and None where there is none."""
        names = self._names()
        return self._parent._owner.node(names[index]) if 0 <= index < len(names) else None


@native
class Node(EventTarget):
    """A node of the page or of a component (DOM Standard, #interface-node).

    A node is one object as long as the program holds it. A call that the Standard refuses raises the exception that `xml.dom` has for
    it, and has changed nothing.
    """

    ELEMENT_NODE, ATTRIBUTE_NODE, TEXT_NODE, CDATA_SECTION_NODE, ENTITY_REFERENCE_NODE, ENTITY_NODE = range(1, 7)
    PROCESSING_INSTRUCTION_NODE, COMMENT_NODE, DOCUMENT_NODE, DOCUMENT_TYPE_NODE, DOCUMENT_FRAGMENT_NODE, NOTATION_NODE = range(7, 13)
    DOCUMENT_POSITION_DISCONNECTED, DOCUMENT_POSITION_PRECEDING, DOCUMENT_POSITION_FOLLOWING = 1, 2, 4
    DOCUMENT_POSITION_CONTAINS, DOCUMENT_POSITION_CONTAINED_BY, DOCUMENT_POSITION_IMPLEMENTATION_SPECIFIC = 8, 16, 32
    namespaceURI = prefix = None
    nodeType: int
    __slots__ = ("_owner", "_name", "__weakref__")

    def __init__(self) -> None:
        raise TypeError("nodes are made by a document or a component")

    @classmethod
    def _of(cls, owner: Owner, name: str) -> Any:
        """Give an object for a node that is there."""
        node = object.__new__(cls)
        node._owner = owner
        node._name = name
        return node

    @property
    def _engine(self) -> Any:
        return self._owner.engine

    @property
    def _shown(self) -> str:
        """The name under which other owners see this node."""
        return self._name if self._owner.word == "p" else f"{self._owner.word}:{self._name}"

    def __hash__(self) -> int:
        return hash((id(self._owner.engine), self._shown))

    def __eq__(self, other: object) -> bool:
        if self is not other:
            return NotImplemented
        return True

    def __bool__(self) -> bool:
        return True

    def __copy__(self) -> Any:
        """Give a clone of this node alone."""
        return self.cloneNode(False)

    def __deepcopy__(self, known: object) -> Any:
        """Give a clone of this node with all that is below it, of the same document."""
        return self.cloneNode(True)

    def __repr__(self) -> str:
        return f"<{type(self).__name__} {self._shown}>"

    def _told(self, of: Callable[[], str]) -> str:
        """Give what a `repr` tells by asking the engine. While the owner does not have the turn it tells nothing, so that it ends no turn."""
        engine = self._owner.engine
        if engine._turn is not self._owner:
            return ""
        try:
            return of()
        except (ClosedError, OutOfMemoryError, WrongThreadError):
            return ""

    # ---- reading

    @property
    def nodeName(self) -> str:
        """The tag name of an element, and a name such as "#text" of another node."""
        return self._owner.kind(self._name)

    @property
    def localName(self) -> str | None:
        """The tag name of an element, and None of another node."""
        return None

    @property
    def nodeValue(self) -> str | None:
        """The data of a Text or Comment, and None of another node."""
        return None

    @nodeValue.setter
    def nodeValue(self, value: str | None) -> None:
        """Change nothing: only Texts and Comments have a value."""

    @property
    def parentNode(self) -> Any:
        """The parent, or None."""
        return self._related(self._owner.parent(self._name))

    @property
    def parentElement(self) -> Any:
        """The parent, where it is an element, or None."""
        parent = self.parentNode
        return parent if parent is not None and parent.nodeType == Node.ELEMENT_NODE else None

    @property
    def childNodes(self) -> ChildNodes:
        """The children, as they are at each moment that one asks."""
        return ChildNodes(self)

    @property
    def firstChild(self) -> Any:
        """The first child, or None."""
        return self._related(self._owner.end_child(self._name, "first"))

    @property
    def lastChild(self) -> Any:
        """The last child, or None."""
        return self._related(self._owner.end_child(self._name, "last"))

    @property
    def previousSibling(self) -> Any:
        """The sibling in front of this node, or None."""
        return self._related(self._owner.sibling(self._name, -1))

    @property
    def nextSibling(self) -> Any:
        """The sibling behind this node, or None."""
        return self._related(self._owner.sibling(self._name, 1))

    def _related(self, name: str | None) -> Any:
        return None if name is None else self._owner.node(name)

    @property
    def ownerDocument(self) -> Any:
        """The node document, and None for a document. A component sees the page's as a `ForeignNode`."""
        return self._owner.seen(self._owner.ask(f"docof {self._name}"))

    @property
    def isConnected(self) -> bool:
        """Whether this node is in a document, also through closed trees and their hosts."""
        return self._owner.ask(f"connected {self._name}") == "true"

    def hasChildNodes(self) -> bool:
        """Give whether there are children."""
        return self._owner.end_child(self._name, "first") is not None

    def contains(self, other: Node | None) -> bool:
        """Give whether `other` is this node or below it."""
        return other is not None and self._owner.ask(f"contains {self._name} {self._owner.name_of(other)}") == "true"

    def getRootNode(self) -> Any:
        """Give the topmost node of this node's own tree. That of a component's tree is its shadow root."""
        return self._owner.node(self._owner.path(self._name)[0])

    def isSameNode(self, other: Node | None) -> bool:
        """Give whether `other` is this node."""
        return self is other

    def isEqualNode(self, other: Node | None) -> bool:
        """Give whether `other` has the same kind, name, attributes, data and, in order, equal children."""
        if other is None:
            return False
        names = self._name, self._owner.name_of(other)
        first, second = (_shape(self._owner.ask(f"tree {name}")) for name in names)
        return first == second

    def compareDocumentPosition(self, other: Node) -> int:
        """Tell where `other` stands to this node, by the constants DOCUMENT_POSITION_*. Nodes of two trees stand in the order in which
        their roots were made."""
        if other is self:
            return 0
        others = self._owner.path(self._owner.name_of(other))
        mine = self._owner.path(self._name)
        if mine[0] != others[0]:
            follows = int(others[0][1:]) > int(mine[0][1:])
            order = self.DOCUMENT_POSITION_FOLLOWING if follows else self.DOCUMENT_POSITION_PRECEDING
            return self.DOCUMENT_POSITION_DISCONNECTED | self.DOCUMENT_POSITION_IMPLEMENTATION_SPECIFIC | order
        shared = sum(1 for _ in _agreeing(mine, others))
        if shared == len(others):
            return self.DOCUMENT_POSITION_CONTAINS | self.DOCUMENT_POSITION_PRECEDING
        if shared == len(mine):
            return self.DOCUMENT_POSITION_CONTAINED_BY | self.DOCUMENT_POSITION_FOLLOWING
        follows = self._owner.index(others[shared]) > self._owner.index(mine[shared])
        return self.DOCUMENT_POSITION_FOLLOWING if follows else self.DOCUMENT_POSITION_PRECEDING

    @property
    def textContent(self) -> str | None:
        """The data of all Texts below, of a Text or Comment its own data, and None for a document.

        Setting it puts one Text, or nothing, in the place of the children."""
        return None

    @textContent.setter
    def textContent(self, text: str | None) -> None:
        """Change nothing: a document has no text."""

    # ---- changing

    def appendChild(self, node: Node, /) -> Any:
        """Append `node` to the children, and give it (DOM Standard, #dom-node-appendchild).

        Raise HierarchyRequestErr where the Standard refuses it."""
        return self.insertBefore(node, None)

    def insertBefore(self, node: Node, child: Node | None) -> Any:
        """Insert `node` before `child`, or last where that is None, and give it (DOM Standard, #dom-node-insertbefore).

        Raise HierarchyRequestErr or NotFoundErr where the Standard refuses it."""
        owner = self._owner
        owner.insert(self._name, owner.name_of(node), None if child is None else owner.name_of(child))
        return node

    def replaceChild(self, node: Node, child: Node) -> Any:
        """Put `node` in the place of `child`, and give `child` (DOM Standard, #dom-node-replacechild).

        Raise HierarchyRequestErr or NotFoundErr where the Standard refuses it."""
        self._owner.replace(self._name, self._owner.name_of(node), self._owner.name_of(child))
        return child

    def removeChild(self, child: Node, /) -> Any:
        """Take `child` out, and give it (DOM Standard, #dom-node-removechild). Raise NotFoundErr where it is no child."""
        name = self._owner.name_of(child)
        if self._owner.parent(name) != self._name:
            raise NotFoundErr(f"not-found: {child!r} is no child of {self!r}")
        self._owner.remove(name)
        return child

    def normalize(self) -> None:
        """Take empty Texts below out, and join neighbouring ones."""
        self._owner.change(f"normalize {self._name}")

    def cloneNode(self, deep: bool = False) -> Any:
        """Give a clone: of this node alone, or with all below it (DOM Standard, #dom-node-clonenode). Closed trees are not cloned."""
        from .cloning import clone

        return clone(self, deep)


def _agreeing(mine: list[str], others: list[str]) -> Iterator[str]:
    """Give the names that two paths begin with."""
    for name, other in zip(mine, others):
        if name != other:
            return
        yield name


def _shape(text: str) -> list[Any]:
    """Give what `isEqualNode` compares of a tree: all but the nodes' names, attributes without their order."""
    shape: list[Any] = []
    attributes: list[tuple[str, str]] = []
    for token in tokens(text):
        if token.what == "attribute":
            attributes.append((token.name, token.value))
            continue
        shape.append(sorted(attributes))
        attributes = []
        shape.append((token.what, token.node_name, token.value))
    return shape
