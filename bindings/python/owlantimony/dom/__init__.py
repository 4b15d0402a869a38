"""Documents as Python's own `xml.dom` has them, over the proved engine.

    from owlantimony.dom import Document, HierarchyRequestErr

    with Document() as document:
        ul = document.createElement("ul")
        document.appendChild(ul)
        for word in ("one", "two"):
            li = document.createElement("li")
            li.append(word)
            ul.appendChild(li)
        assert document.querySelector("li:first-child").textContent == "one"
        try:
            li.appendChild(ul)
        except HierarchyRequestErr:
            pass                                # nothing has changed

Names and rules are those of the DOM Standard. A refusal raises the exception that `xml.dom` has for it, with the refused line of the
engine's protocol in its message: `HierarchyRequestErr`, `NotFoundErr`, `NotSupportedErr`, `InvalidCharacterErr`, `IndexSizeErr`,
`SyntaxErr` for a selector, `WrongDocumentErr` for a node of another owner, `DomstringSizeErr` for a value that no line has room for. The
two that `xml.dom` has not are `LimitErr` and `InvalidNodeTypeErr`. Want of memory is a `MemoryError`. What callbacks raise is raised by
`dispatchEvent`, `end_turn` and `close` alone, when all have been called, or handed to `document.onerror`.

A closed tree is reached by its `Component` alone:

        div = document.createElement("div")
        widget = div.attachShadow()             # div.shadowRoot is None
        widget.root.appendChild(widget.createElement("slot"))

Observers, microtasks and slot changes are told when a turn ends: by `document.end_turn()`, where another owner acts, and by `close`.
"""
from xml.dom import (
    DOMException,
    DomstringSizeErr,
    HierarchyRequestErr,
    IndexSizeErr,
    InvalidCharacterErr,
    InvalidStateErr,
    NotFoundErr,
    NotSupportedErr,
    SyntaxErr,
    WrongDocumentErr,
)
from xml.dom.NodeFilter import NodeFilter

from .attributes import Attr, DOMTokenList, NamedNodeMap
from .characterdata import CharacterData, Comment, Text
from .components import Component
from .document import Document, DocumentFragment, DOMImplementation, ShadowRoot, getDOMImplementation
from .element import Element
from .errors import CallbackErrors, InvalidNodeTypeErr, LimitErr
from .events import Event, ShownEvent
from .node import Node
from .observers import MutationObserver
from .owner import ForeignNode
from .ranges import Range
from .records import MutationRecord
from .traversal import NodeIterator, NodeNameFilter, TreeWalker

__all__ = [
    "Attr",
    "CallbackErrors",
    "CharacterData",
    "Comment",
    "Component",
    "DOMException",
    "DOMImplementation",
    "DOMTokenList",
    "Document",
    "DocumentFragment",
    "DomstringSizeErr",
    "Element",
    "Event",
    "ForeignNode",
    "HierarchyRequestErr",
    "IndexSizeErr",
    "InvalidCharacterErr",
    "InvalidNodeTypeErr",
    "InvalidStateErr",
    "LimitErr",
    "MutationObserver",
    "MutationRecord",
    "NamedNodeMap",
    "Node",
    "NodeFilter",
    "NodeIterator",
    "NodeNameFilter",
    "NotFoundErr",
    "NotSupportedErr",
    "Range",
    "ShadowRoot",
    "ShownEvent",
    "SyntaxErr",
    "Text",
    "TreeWalker",
    "WrongDocumentErr",
    "getDOMImplementation",
]
