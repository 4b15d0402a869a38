"""What a document of the engine can't hold of HTML, carried beside its nodes: a doctype, names, namespaces, and attributes."""
from __future__ import annotations

from collections.abc import Iterator, MutableMapping
from dataclasses import dataclass, field
from typing import NamedTuple, Union
from xml.dom import DomstringSizeErr, InvalidCharacterErr

from html5lib.constants import namespaces

from . import dom
from .dom.owner import Owner

__all__ = ["Attributes", "Beside", "Doctype", "HTML", "Key", "beside_of", "qualified"]

HTML = namespaces["html"]

Key = Union[str, "tuple[str | None, str, str]"]
"""The name of an attribute, or its prefix, local name and namespace."""


class Doctype(NamedTuple):
    """A doctype, and how many children of the document it follows."""

    name: str
    publicId: str | None
    systemId: str | None
    position: int


@dataclass
class Beside:
    """What is carried beside one node."""

    name: str | None = None
    namespace: str = HTML
    doctype: Doctype | None = None
    attributes: dict[Key, str] = field(default_factory=dict)

    def copy(self) -> Beside:
        """Give the same for a clone."""
        return Beside(self.name, self.namespace, self.doctype, dict(self.attributes))

    def drop(self, attribute: str) -> None:
        """Drop the attributes that HTML writes under this name."""
        self.attributes = {key: value for key, value in self.attributes.items() if qualified(key) != attribute}


def qualified(key: Key) -> str:
    """Give the name of an attribute as HTML writes it."""
    if isinstance(key, str):
        return key
    return f"{key[0]}:{key[1]}" if key[0] else key[1]


class Attributes(MutableMapping[Key, str]):
    """The attributes of an element with those that are carried beside it, as html5lib's parser asks for them."""

    def __init__(self, element: dom.Element) -> None:
        self._element = element
        self._owner = element._owner

    def _beside(self) -> dict[Key, str]:
        beside = self._owner.beside.get(self._element._name)
        return beside.attributes if beside else {}

    def _all(self) -> dict[Key, str]:
        return {**self._beside(), **dict(self._element.attributes.items())}

    def __getitem__(self, key: Key) -> str:
        return self._all()[key]

    def __setitem__(self, key: Key, value: str) -> None:
        """Set an attribute, or carry it beside the element where that can't hold it."""
        try:
            if isinstance(key, str):
                self._element.setAttribute(key, value)
                return
        except (InvalidCharacterErr, DomstringSizeErr):
            pass
        beside_of(self._owner, self._element._name).attributes[key] = value

    def __delitem__(self, key: Key) -> None:
        if key in self._beside():
            del self._beside()[key]
        else:
            del self._element.attributes[qualified(key)]

    def __iter__(self) -> Iterator[Key]:
        return iter(self._all())

    def __len__(self) -> int:
        return len(self._all())


def beside_of(owner: Owner, name: str) -> Beside:
    """Give what is carried beside a node, to change it."""
    return owner.beside.setdefault(name, Beside())
