"""Attributes, as a mapping and as sets of words."""
from __future__ import annotations

import re
from collections.abc import Iterator, MutableMapping, MutableSet
from typing import TYPE_CHECKING, Any
from xml.dom import InvalidCharacterErr, SyntaxErr

if TYPE_CHECKING:
    from .element import Element

__all__ = ["Attr", "DOMTokenList", "NamedNodeMap"]

_SPACES = re.compile("[\t\n\f\r ]+")


class Attr:
    """An attribute, of an element or of none yet (`ownerElement`). Its value is that of the element at each moment that one asks."""

    nodeType = 2
    namespaceURI = prefix = None
    specified = True
    __slots__ = ("name", "ownerElement", "_value")

    def __init__(self, name: str, element: Element | None = None) -> None:
        self.name = name
        self.ownerElement = element
        self._value = ""

    @property
    def value(self) -> str:
        """The value, which may be set."""
        return self._value if self.ownerElement is None else self.ownerElement.getAttribute(self.name) or ""

    @value.setter
    def value(self, value: str) -> None:
        if self.ownerElement is None:
            self._value = value
        else:
            self.ownerElement.setAttribute(self.name, value)

    @property
    def ownerDocument(self) -> Any:
        """The node document of the element, and None where there is no element."""
        return None if self.ownerElement is None else self.ownerElement.ownerDocument

    nodeName = localName = property(lambda self: self.name, doc="The name.")
    nodeValue = textContent = value

    def __repr__(self) -> str:
        return f"<Attr {self.name}={self.value!r}>"


class NamedNodeMap(MutableMapping[str, Any]):
    """The attributes of an element by their names, in order, as `xml.dom` has them: a name gives an `Attr`, and `items` have values."""

    __slots__ = ("_element",)

    def __init__(self, element: Element) -> None:
        self._element = element

    def _names(self) -> list[str]:
        return self._element.getAttributeNames()

    def __len__(self) -> int:
        return len(self._names())

    def __iter__(self) -> Iterator[str]:
        return iter(self._names())

    def __contains__(self, name: object) -> bool:
        return name in self._names()

    def __getitem__(self, name: str) -> Attr:
        if name not in self._names():
            raise KeyError(name)
        return Attr(name, self._element)

    def __setitem__(self, name: str, value: Attr | str) -> None:
        if not isinstance(value, (Attr, str)):
            raise TypeError(f"an attribute is a string or an Attr: {value!r}")
        self._element.setAttribute(name, value if isinstance(value, str) else value.value)

    def __delitem__(self, name: str) -> None:
        if name not in self._names():
            raise KeyError(name)
        self._element.removeAttribute(name)

    def items(self) -> Any:
        """Give the names and values, as a list of pairs of strings."""
        return [(name, self._element.getAttribute(name) or "") for name in self._names()]

    def keys(self) -> Any:
        """Give the names, as a list."""
        return self._names()

    def values(self) -> Any:
        """Give the attributes, as a list of `Attr`s."""
        return [Attr(name, self._element) for name in self._names()]

    @property
    def length(self) -> int:
        """How many attributes there are."""
        return len(self)

    def item(self, index: int) -> Attr | None:
        """Give an attribute by its index, and None where there is none."""
        names = self._names()
        return Attr(names[index], self._element) if 0 <= index < len(names) else None

    def getNamedItem(self, name: str) -> Attr | None:
        """Give an attribute, and None where there is none."""
        return self.get(name)

    def __repr__(self) -> str:
        return f"<NamedNodeMap {dict(self.items())}>"


class DOMTokenList(MutableSet[str]):
    """The words of an attribute between white space, in order (DOM Standard, #interface-domtokenlist)."""

    __slots__ = ("_element", "_attribute")

    def __init__(self, element: Element, attribute: str) -> None:
        self._element = element
        self._attribute = attribute

    def _words(self) -> list[str]:
        return list(dict.fromkeys(word for word in _SPACES.split(self.value) if word))

    def __contains__(self, word: object) -> bool:
        return word in self._words()

    def __iter__(self) -> Iterator[str]:
        return iter(self._words())

    def __len__(self) -> int:
        return len(self._words())

    def __str__(self) -> str:
        return self.value

    def __repr__(self) -> str:
        return f"<DOMTokenList {self._words()}>"

    @property
    def value(self) -> str:
        """The attribute's value, which may be set."""
        return self._element.getAttribute(self._attribute) or ""

    @value.setter
    def value(self, value: str) -> None:
        self._element.setAttribute(self._attribute, value)

    @property
    def length(self) -> int:
        """How many words there are."""
        return len(self)

    def item(self, index: int) -> str | None:
        """Give a word by its index, and None where there is none."""
        words = self._words()
        return words[index] if 0 <= index < len(words) else None

    def contains(self, word: str) -> bool:
        """Give whether a word is there."""
        return word in self

    def add(self, *words: str) -> None:
        """Add words. Raise SyntaxErr for an empty one, and InvalidCharacterErr for one with white space."""
        self._update(dict.fromkeys([*self._words(), *map(_word, words)]))

    def remove(self, *words: str) -> None:
        """Take words away, also where they are not there. Raise as `add` does."""
        gone = set(map(_word, words))
        self._update(dict.fromkeys(word for word in self._words() if word not in gone))

    def discard(self, *words: str) -> None:
        """Do as `remove` does."""
        self.remove(*words)

    def toggle(self, word: str, force: bool | None = None) -> bool:
        """Take a word away where it is there, and else add it; with `force`, only add or only take away. Give whether it is there now."""
        there = _word(word) in self
        wanted = not there if force is None else force
        if wanted and not there:
            self.add(word)
        elif there and not wanted:
            self.remove(word)
        return wanted

    def replace(self, word: str, other: str) -> bool:
        """Put a word in another one's place, and give whether that one was there."""
        words = self._words()
        if _word(word) not in words or not _word(other):
            return False
        self._update(dict.fromkeys(other if there == word else there for there in words))
        return True

    def _update(self, words: dict[str, None]) -> None:
        """Set the attribute to these words (DOM Standard, #concept-dtl-update)."""
        if words or self._element.hasAttribute(self._attribute):
            self.value = " ".join(words)


def _word(word: str) -> str:
    if not word:
        raise SyntaxErr("an empty word")
    if _SPACES.search(word):
        raise InvalidCharacterErr(f"a word with white space: {word!r}")
    return word
