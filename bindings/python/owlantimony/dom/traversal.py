"""Node iterators and tree walkers."""
from __future__ import annotations

from typing import TYPE_CHECKING, Any
from xml.dom import NotSupportedErr
from xml.dom.NodeFilter import NodeFilter

from .owner import name_or_error

if TYPE_CHECKING:
    from .node import Node
    from .owner import Owner

__all__ = ["NodeIterator", "NodeNameFilter", "TreeWalker"]

_WORDS = {
    NodeFilter.SHOW_ELEMENT: "element",
    NodeFilter.SHOW_TEXT: "text",
    NodeFilter.SHOW_COMMENT: "comment",
    NodeFilter.SHOW_DOCUMENT: "document",
    NodeFilter.SHOW_DOCUMENT_FRAGMENT: "fragment",
}


class NodeNameFilter:
    """What an iterator or a walker passes by: the elements with a name, alone or (for a walker) with all below them.

    It has no `acceptNode`: the engine calls nobody while it walks.
    """

    __slots__ = ("word",)

    def __init__(self, word: str) -> None:
        self.word = word

    @classmethod
    def skip(cls, name: str) -> NodeNameFilter:
        """Pass by the elements with this name, but not what is below them (`FILTER_SKIP`). Raise InvalidCharacterErr for no name."""
        return cls(f" skip={name_or_error(name)}")

    @classmethod
    def reject(cls, name: str) -> NodeNameFilter:
        """Pass by the elements with this name, for a walker with all below them (`FILTER_REJECT`). Raise InvalidCharacterErr for no name."""
        return cls(f" reject={name_or_error(name)}")


class _Cursor:
    """What iterators and walkers share."""

    __slots__ = ("_owner", "_name", "root", "whatToShow", "filter")
    _command: str

    def __init__(self, owner: Owner, root: Node, whatToShow: int = NodeFilter.SHOW_ALL, filter: NodeNameFilter | None = None) -> None:
        if filter is not None and not isinstance(filter, NodeNameFilter):
            raise TypeError(f"a filter is NodeNameFilter.skip(..) or .reject(..), as nobody is called while the engine walks: {filter!r}")
        shown = [word for bit, word in _WORDS.items() if whatToShow & bit]
        if not shown:
            raise NotSupportedErr(f"not-supported: no kind of node that is here is shown by {whatToShow}")
        words = "all" if len(shown) == len(_WORDS) else ",".join(shown)
        self._owner = owner
        self._name = owner.ask(f"{self._command} {owner.name_of(root)} {words}{filter.word if filter else ''}")
        self.root = root
        self.whatToShow = whatToShow
        self.filter = filter

    def __repr__(self) -> str:
        return f"<{type(self).__name__} {self._name}>"

    def _move(self, command: str) -> Any:
        return self._owner.node(self._owner.ask(command))


class NodeIterator(_Cursor):
    """An iterator over a tree in tree order (DOM Standard, #interface-nodeiterator). Changes of the tree move it as the Standard says."""

    _command = "iter-new"
    __slots__ = ()

    def nextNode(self) -> Any:
        """Give the next node, or None."""
        return self._move(f"iter-next {self._name}")

    def previousNode(self) -> Any:
        """Give the previous node, or None."""
        return self._move(f"iter-prev {self._name}")

    @property
    def referenceNode(self) -> Any:
        """The node at which the iterator stands."""
        return self._owner.node(self._owner.ask(f"iter-at {self._name}").split(" ")[0])

    @property
    def pointerBeforeReferenceNode(self) -> bool:
        """Whether the iterator stands in front of that node."""
        return self._owner.ask(f"iter-at {self._name}").endswith(" before")

    def detach(self) -> None:
        """Do nothing, as the Standard has it."""

    def __iter__(self) -> NodeIterator:
        return self

    def __next__(self) -> Any:
        node = self.nextNode()
        if node is None:
            raise StopIteration
        return node


class TreeWalker(_Cursor):
    """A walker over a tree (DOM Standard, #interface-treewalker). Each move gives the node it comes to, or None and stays."""

    _command = "walk-new"
    __slots__ = ()

    @property
    def currentNode(self) -> Any:
        """The node at which the walker stands, which may be set."""
        return self._owner.node(self._owner.ask(f"walk-at {self._name}"))

    @currentNode.setter
    def currentNode(self, node: Node) -> None:
        self._owner.ask(f"walk-set {self._name} {self._owner.name_of(node)}")

    def parentNode(self) -> Any:
        """Go to the nearest node above that is shown."""
        return self._move(f"walk {self._name} parent")

    def firstChild(self) -> Any:
        """Go to the first child that is shown."""
        return self._move(f"walk {self._name} first")

    def lastChild(self) -> Any:
        """Go to the last child that is shown."""
        return self._move(f"walk {self._name} last")

    def nextNode(self) -> Any:
        """Go to the next node in tree order."""
        return self._move(f"walk {self._name} next")

    def previousNode(self) -> Any:
        """Go to the previous node in tree order."""
        return self._move(f"walk {self._name} previous")

    def nextSibling(self) -> Any:
        """Go to the next sibling that is shown."""
        return self._move(f"walk {self._name} next-sibling")

    def previousSibling(self) -> Any:
        """Go to the previous sibling that is shown."""
        return self._move(f"walk {self._name} previous-sibling")
