"""Live ranges."""
from __future__ import annotations

import operator
from typing import TYPE_CHECKING, Any
from xml.dom import IndexSizeErr, InvalidStateErr, NotSupportedErr, WrongDocumentErr

from ..strings import slice_of, unquote_known
from .characterdata import CharacterData, offset_or_error
from .cloning import clone, clone_with_data
from .errors import InvalidNodeTypeErr
from .node import Node

if TYPE_CHECKING:
    from .owner import Owner

__all__ = ["Range"]

Point = tuple[str, int]


def compare_points(owner: Owner, first: Point, second: Point) -> int:
    """Give -1, 0 or 1 as the first point is before, at or after the second (DOM Standard, #concept-range-bp-position).

    Raise WrongDocumentErr where they stand in two trees."""
    if first[0] == second[0]:
        return (first[1] > second[1]) - (first[1] < second[1])
    mine, others = owner.path(first[0]), owner.path(second[0])
    if mine[0] != others[0]:
        raise WrongDocumentErr(f"{first[0]} and {second[0]} stand in two trees")
    shared = next((at for at, pair in enumerate(zip(mine, others)) if pair[0] != pair[1]), min(len(mine), len(others)))
    if shared == len(mine):
        return 1 if owner.index(others[shared]) < first[1] else -1
    if shared == len(others):
        return -1 if owner.index(mine[shared]) < second[1] else 1
    return -1 if owner.index(mine[shared]) < owner.index(others[shared]) else 1


def length_of_node(node: Any) -> int:
    """Give a node's length: how many code units, or children, it has (DOM Standard, #concept-node-length)."""
    return node.length if isinstance(node, CharacterData) else len(node.childNodes)


class Range:
    """A live range (DOM Standard, #interface-range): it follows every change. `createRange` makes one; it goes when nobody holds it."""

    START_TO_START, START_TO_END, END_TO_END, END_TO_START = range(4)
    __slots__ = ("_owner", "_name")

    def __init__(self, owner: Owner) -> None:
        self._owner = owner
        self._name = owner.ask("range-new")

    def __del__(self) -> None:
        if hasattr(self, "_name"):
            self._owner.dropped.append(self._name)

    def __repr__(self) -> str:
        return f"<Range {self._name}>"

    # ---- boundary points

    def _points(self) -> tuple[Point, Point]:
        start, start_offset, end, end_offset = self._owner.ask(f"range-get {self._name}").split(" ")
        return (start, int(start_offset)), (end, int(end_offset))

    @property
    def startContainer(self) -> Any:
        """The node of the start."""
        return self._owner.node(self._points()[0][0])

    @property
    def startOffset(self) -> int:
        """The offset of the start."""
        return self._points()[0][1]

    @property
    def endContainer(self) -> Any:
        """The node of the end."""
        return self._owner.node(self._points()[1][0])

    @property
    def endOffset(self) -> int:
        """The offset of the end."""
        return self._points()[1][1]

    @property
    def collapsed(self) -> bool:
        """Whether the start is the end."""
        start, end = self._points()
        return start == end

    @property
    def commonAncestorContainer(self) -> Any:
        """The lowest node that is, or is above, the node of the start and that of the end."""
        start, end = self._points()
        above = set(self._owner.path(end[0]))
        return self._owner.node(next(name for name in reversed(self._owner.path(start[0])) if name in above))

    def setStart(self, node: Node, offset: int) -> None:
        """Set the start; an end before it, or in another tree, goes there too. Raise IndexSizeErr for an offset past the length."""
        self._owner.ask(f"range-start {self._name} {self._owner.name_of(node)} {offset_or_error(offset)}")

    def setEnd(self, node: Node, offset: int) -> None:
        """Set the end; a start behind it, or in another tree, goes there too. Raise IndexSizeErr for an offset past the length."""
        self._owner.ask(f"range-end {self._name} {self._owner.name_of(node)} {offset_or_error(offset)}")

    def _place(self, node: Node) -> tuple[Any, int]:
        """Give the parent and the index of a node. Raise InvalidNodeTypeErr where it has no parent."""
        name = self._owner.name_of(node)
        parent = node.parentNode
        if parent is None:
            raise InvalidNodeTypeErr(f"{node!r} has no parent")
        return parent, self._owner.index(name)

    def setStartBefore(self, node: Node) -> None:
        """Set the start in front of a node. Raise InvalidNodeTypeErr where it has no parent."""
        self.setStart(*self._place(node))

    def setStartAfter(self, node: Node) -> None:
        """Set the start behind a node. Raise InvalidNodeTypeErr where it has no parent."""
        parent, index = self._place(node)
        self.setStart(parent, index + 1)

    def setEndBefore(self, node: Node) -> None:
        """Set the end in front of a node. Raise InvalidNodeTypeErr where it has no parent."""
        self.setEnd(*self._place(node))

    def setEndAfter(self, node: Node) -> None:
        """Set the end behind a node. Raise InvalidNodeTypeErr where it has no parent."""
        parent, index = self._place(node)
        self.setEnd(parent, index + 1)

    def collapse(self, toStart: bool = False) -> None:
        """Set the start to the end, or the end to the start."""
        self._owner.ask(f"range-collapse {self._name} {'start' if toStart else 'end'}")

    def selectNode(self, node: Node) -> None:
        """Set the ends around a node. Raise InvalidNodeTypeErr where it has no parent."""
        parent, index = self._place(node)
        self.setStart(parent, index)
        self.setEnd(parent, index + 1)

    def selectNodeContents(self, node: Node) -> None:
        """Set the ends around all that is in a node."""
        self.setStart(node, 0)
        self.setEnd(node, length_of_node(node))

    def cloneRange(self) -> Range:
        """Give another range with the same ends."""
        other = Range(self._owner)
        start, end = self._points()
        other.setStart(self._owner.node(start[0]), start[1])
        other.setEnd(self._owner.node(end[0]), end[1])
        return other

    def detach(self) -> None:
        """Do nothing, as the Standard has it."""

    # ---- comparing

    def compareBoundaryPoints(self, how: int, sourceRange: Range) -> int:
        """Give -1, 0 or 1 as this range's point is before, at or after the other one's. `START_TO_END` compares this range's end with the
        other's start, and `END_TO_START` its start with the other's end.

        Raise WrongDocumentErr for ranges in two trees, and NotSupportedErr for another number."""
        if how not in range(4):
            raise NotSupportedErr(f"not-supported: {how}")
        if not isinstance(sourceRange, Range):
            raise TypeError(f"a range is compared with a range: {sourceRange!r}")
        if sourceRange._owner is not self._owner:
            raise WrongDocumentErr(f"foreign: {sourceRange!r}")
        mine = self._points()[how in (self.START_TO_END, self.END_TO_END)]
        other = sourceRange._points()[how in (self.END_TO_END, self.END_TO_START)]
        return compare_points(self._owner, mine, other)

    def comparePoint(self, node: Node, offset: int) -> int:
        """Give -1, 0 or 1 as a point is before, in or behind the range. Raise WrongDocumentErr or IndexSizeErr where it is none here."""
        point = self._owner.name_of(node), int(operator.index(offset))
        start, end = self._points()
        before = compare_points(self._owner, point, start) < 0
        if not 0 <= offset <= length_of_node(node):
            raise IndexSizeErr(f"index-size: {offset} in {node!r}")
        return -1 if before else int(compare_points(self._owner, point, end) > 0)

    def isPointInRange(self, node: Node, offset: int) -> bool:
        """Give whether a point is in the range. Raise IndexSizeErr for an offset past the length."""
        try:
            return self.comparePoint(node, offset) == 0
        except WrongDocumentErr:
            self._owner.name_of(node)
            return False

    def intersectsNode(self, node: Node) -> bool:
        """Give whether a node, or some of it, is in the range."""
        name = self._owner.name_of(node)
        start, end = self._points()
        if node.getRootNode() is not self._owner.node(start[0]).getRootNode():
            return False
        parent = node.parentNode
        if parent is None:
            return True
        index = self._owner.index(name)
        is_before_end = compare_points(self._owner, (parent._name, index), end) < 0
        return is_before_end and compare_points(self._owner, (parent._name, index + 1), start) > 0

    # ---- contents

    def toString(self) -> str:
        """Give the data of the Texts in the range, as `str(range)` does."""
        return unquote_known(self._owner.ask(f"range-text {self._name}"))

    __str__ = toString

    def deleteContents(self) -> None:
        """Take what is in the range out of the tree."""
        self._owner.change(f"delete {self._name}")

    def extractContents(self) -> Any:
        """Move what is in the range into a new fragment, and give it."""
        chains = self._cloned_chains() if self._owner.beside else ([], [])
        fragment = self._owner.node(self._owner.change(f"extract {self._name}"))
        self._owner.lose_count()
        for chain, side in zip(chains, ("firstChild", "lastChild")):
            copy = fragment
            for name in chain:
                copy = getattr(copy, side)
                if name in self._owner.beside:
                    self._owner.beside[copy._name] = self._owner.beside[name].copy()
        return fragment

    def _cloned_chains(self) -> tuple[list[str], list[str]]:
        """Give the names of the nodes that `extract` clones, from the outermost inwards: those that hold the start alone, or the end."""
        (start, _), (end, _) = self._points()
        paths = self._owner.path(start), self._owner.path(end)
        shared = sum(1 for pair in zip(*paths) if pair[0] == pair[1])
        return paths[0][shared:], paths[1][shared:]

    def insertNode(self, node: Node) -> None:
        """Insert a node at the start. Raise HierarchyRequestErr where the Standard refuses it."""
        self._owner.change(f"insert-node {self._name} {self._owner.name_of(node)}")
        self._owner.lose_count()

    def surroundContents(self, newParent: Any) -> None:
        """Put what is in the range into `newParent`, and that in its place (DOM Standard, #dom-range-surroundcontents).

        Raise InvalidStateErr where a node that is no Text is in the range in part, and InvalidNodeTypeErr for a document or a fragment."""
        self._owner.name_of(newParent)
        start, end = (self._owner.node(point[0]) for point in self._points())
        inner = [node.parentNode if node.nodeType == Node.TEXT_NODE else node for node in (start, end)]
        if start is not end and (inner[0] is not inner[1]):
            raise InvalidStateErr(f"a node that is no Text is in {self!r} in part")
        if newParent.nodeType in (Node.DOCUMENT_NODE, Node.DOCUMENT_FRAGMENT_NODE):
            raise InvalidNodeTypeErr(f"{newParent!r} can't surround")
        fragment = self.extractContents()
        if newParent.hasChildNodes():
            newParent.replaceChildren()
        self.insertNode(newParent)
        newParent.appendChild(fragment)
        self.selectNode(newParent)

    def cloneContents(self) -> Any:
        """Give a fragment with clones of what is in the range (DOM Standard, #concept-range-clone)."""
        fragment = self._owner.make("new fragment", "#document-fragment")
        (start_name, first), (end_name, last) = self._points()
        start, end = self._owner.node(start_name), self._owner.node(end_name)
        if start is end and first == last:
            return fragment
        if start is end and isinstance(start, CharacterData):
            fragment.appendChild(clone_with_data(start, slice_of(start.data, first, last)))
            return fragment
        common = self.commonAncestorContainer
        children = list(common.childNodes)
        front = [] if start is common else [_edge(start, first, common, is_start=True)]
        back = [] if end is common else [_edge(end, last, common, is_start=False)]
        low = children.index(_below(start, common)) + 1 if front else first
        high = children.index(_below(end, common)) if back else last
        for node in [*front, *(clone(child, True) for child in children[low:high]), *back]:
            fragment.appendChild(node)
        return fragment


def _below(node: Any, above: Any) -> Any:
    """Give the child of `above` that is `node` or above it."""
    while node.parentNode is not above:
        node = node.parentNode
    return node


def _edge(node: Any, offset: int, common: Any, is_start: bool) -> Any:
    """Give the clone of the child of `common` that is in the range in part, with what of it is in the range."""
    if isinstance(node, CharacterData):
        data = node.data
        copy = clone_with_data(node, slice_of(data, offset, len(data) * 2) if is_start else slice_of(data, 0, offset))
    else:
        copy = clone(node, False)
        for child in list(node.childNodes)[offset:] if is_start else list(node.childNodes)[:offset]:
            copy.appendChild(clone(child, True))
    while node.parentNode is not common:
        parent = node.parentNode
        outer = clone(parent, False)
        children = list(parent.childNodes)
        at = parent._owner.index(node._name)
        beside = [clone(child, True) for child in (children[at + 1 :] if is_start else children[:at])]
        for child in [copy, *beside] if is_start else [*beside, copy]:
            outer.appendChild(child)
        node, copy = parent, outer
    return copy
