"""Texts and Comments."""
from __future__ import annotations

from operator import index
from typing import Any
from xml.dom import IndexSizeErr

from ..strings import units, slice_of
from .extension import native
from .owner import NODE_CLASSES
from .parents import ChildNode
from .node import Node
from .treetext import tokens

__all__ = ["CharacterData", "Comment", "Text", "offset_or_error"]

GREATEST = 999_999_999
SHOWN = 40
"""How many characters of the data a `repr` shows."""


def offset_or_error(offset: int) -> int:
    """Give an offset that may stand in a line. Raise IndexSizeErr for another, which is past the length of every node, and TypeError for
    what is no integer."""
    offset = int(index(offset))
    if not 0 <= offset <= GREATEST:
        raise IndexSizeErr(f"index-size: {offset}")
    return offset


def _count_or_error(count: int) -> int:
    """Give a count that may stand in a line, for one that is greater than the length of every node the greatest. Raise IndexSizeErr for
    one below 0, and TypeError for what is no integer."""
    return offset_or_error(min(index(count), GREATEST))


@native
class CharacterData(ChildNode):
    """A node with data (DOM Standard, #interface-characterdata). Offsets and lengths count 16-bit code units.

    Data that no line of the engine's protocol has room for, about 60,000 bytes, are changed by pieces: an observer gets a record of each.
    """

    __slots__ = ()

    def __repr__(self) -> str:
        return f"<{type(self).__name__} {self._shown}{self._told(self._beginning)}>"

    def _beginning(self) -> str:
        """Give the beginning of the data, for a `repr`."""
        data = self.data
        return f" {data!r}" if len(data) <= SHOWN else f" {data[:SHOWN]!r}.."

    @property
    def data(self) -> str:
        """The data."""
        return next(tokens(self._owner.ask(f"tree {self._name}"))).value

    @data.setter
    def data(self, data: str | None) -> None:
        self._owner.replace_data(self._name, 0, GREATEST, data or "")

    @property
    def nodeValue(self) -> str | None:
        """The data."""
        return self.data

    @nodeValue.setter
    def nodeValue(self, value: str | None) -> None:
        self.data = value or ""

    @property
    def textContent(self) -> str | None:
        """The data."""
        return self.data

    @textContent.setter
    def textContent(self, text: str | None) -> None:
        self.data = text or ""

    @property
    def length(self) -> int:
        """How many code units the data have."""
        return units(self.data)

    def substringData(self, offset: int, count: int) -> str:
        """Give `count` code units, or those that there are, from an offset on. Raise IndexSizeErr for an offset past the length."""
        data = self.data
        if offset_or_error(offset) > units(data):
            raise IndexSizeErr(f"index-size: {offset} in {self!r}")
        return slice_of(data, offset, offset + _count_or_error(count))

    def appendData(self, data: str) -> None:
        """Append to the data."""
        self._owner.replace_data(self._name, self.length, 0, data)

    def insertData(self, offset: int, data: str) -> None:
        """Insert into the data. Raise IndexSizeErr for an offset past the length."""
        self.replaceData(offset, 0, data)

    def deleteData(self, offset: int, count: int) -> None:
        """Take code units away. Raise IndexSizeErr for an offset past the length."""
        self.replaceData(offset, count, "")

    def replaceData(self, offset: int, count: int, data: str) -> None:
        """Put data in the place of `count` code units, or of those that there are. Raise IndexSizeErr for an offset past the length."""
        self._owner.replace_data(self._name, offset_or_error(offset), _count_or_error(count), data)


@native
class Text(CharacterData):
    """A Text (DOM Standard, #interface-text)."""

    nodeType = Node.TEXT_NODE
    assignedSlot = None
    """None: all shadow roots are closed."""
    __slots__ = ()

    def splitText(self, offset: int) -> Any:
        """Put the data from an offset on into a new Text behind this one, and give it. Raise IndexSizeErr for an offset past the length."""
        command = f"split {self._name} {offset_or_error(offset)}"
        text = self._owner.make(command, "#text")
        self._owner.memory.forget_all()
        return text

    @property
    def wholeText(self) -> str:
        """The data of this Text and of those that stand next to it without anything between."""
        first = self
        while first.previousSibling is not None and first.previousSibling.nodeType == Node.TEXT_NODE:
            first = first.previousSibling
        whole = []
        at: Any = first
        while at is not None and at.nodeType == Node.TEXT_NODE:
            whole.append(at.data)
            at = at.nextSibling
        return "".join(whole)


@native
class Comment(CharacterData):
    """A Comment (DOM Standard, #interface-comment)."""

    nodeType = Node.COMMENT_NODE
    __slots__ = ()


NODE_CLASSES["#text"] = Text
NODE_CLASSES["#comment"] = Comment
