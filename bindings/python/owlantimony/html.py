"""HTML in and out, with the results of html5lib: its parser builds a document here, and a document is written as its serializer writes it.

    from owlantimony import html

    with html.parse("<!DOCTYPE html><p>one<p>two") as document:
        document.querySelector("p").textContent = "first"
        print(html.serialize(document))

What a document of the engine can't hold is carried beside it and written back: a doctype, a namespace, a name such as `xlink:href` or
`o:p`, and a value that no line of the engine's protocol has room for. No call of the document reads or finds it. `carried` lists all of
that, and `drop_carried` drops it; so does a call that sets or removes an attribute of its name. An element with such a name stands in the
document under a name that it can have. `noscript` is read as a browser with scripts reads it: what is in it is one Text.
"""
from __future__ import annotations

import io
import re
import weakref
from collections.abc import Callable, Iterator
from typing import Any, NamedTuple
from xml.dom import HierarchyRequestErr

try:
    import html5lib
    from html5lib.treebuilders import dom as builders
except ImportError as fault:
    raise ImportError("owlantimony.html wants html5lib: pip install html5lib, or Debian's python3-html5lib") from fault

from . import dom
from .beside import HTML, Attributes, Beside, Doctype, Key, beside_of, qualified
from .dom.owner import Owner
from .fastparser import Part, parts_of_page, readable
from .markup import Walker, written

__all__ = ["Carried", "Doctype", "carried", "doctype_of", "drop_carried", "parse", "parse_fragment", "serialize"]

_NOT_IN_A_NAME = re.compile(r"[^A-Za-z0-9_-]")
_TOLD_EACH = 10_000
"""After how many parts of a page that was read at once it is told how far the document is."""


Progress = Callable[[int, int], Any]
"""What is called with how much of a page was read, and how much there is, in characters or bytes."""


class Carried(NamedTuple):
    """What is carried beside a node: its doctype, its name, its namespace, or an attribute with its name."""

    node: Any
    what: str
    value: str


def parse(text: str | bytes, document: dom.Document | None = None, *, progress: Progress | None = None, faster: bool = True) -> dom.Document:
    """Parse a page into an empty document, or into one with a session of its own, and give it.

    html5lib reads the page. If html5-parser is installed, and is known to make the same tree of such a page, it does so in less time, unless
    `faster` is False. `progress` is called now and then with how much of the page was read, and how much there is; what it raises ends the parse.

    Raise TypeError for what is no page or no document, and HierarchyRequestErr for a document with children."""
    _check_text(text)
    if document is not None and not isinstance(document, dom.Document):
        raise TypeError(f"a page is parsed into a Document: {document!r}")
    if document is not None and document.hasChildNodes():
        raise HierarchyRequestErr(f"a page is parsed into an empty document: {document!r} has children")
    place = dom.Document() if document is None else document
    try:
        _read(text, place, progress or (lambda done, total: None), faster)
    except BaseException:
        if document is None:
            place._owner.engine.close()
        raise
    return place


def _read(text: str | bytes, document: dom.Document, progress: Progress, faster: bool) -> None:
    """Read a page into an empty document."""
    page = readable(text) if faster else None
    builder = _Builder(document)
    if page is None:
        html5lib.HTMLParser(tree=lambda _: builder).parse(_Watched(text, progress), scripting=True)
        document.normalize()
    else:
        builder.build(page, lambda done, total: progress(len(text) * done // total, len(text)))
    progress(len(text), len(text))


class _Watched:
    """A page that a parser reads by pieces, and that tells how far it was read."""

    def __init__(self, text: str | bytes, progress: Progress) -> None:
        self._stream: Any = io.StringIO(text) if isinstance(text, str) else io.BytesIO(text)
        self._told, self._total = 0, len(text)
        self._progress = progress
        self.seek, self.tell = self._stream.seek, self._stream.tell

    def read(self, size: int = -1) -> Any:
        """Give the next piece, and tell how far this is, if it is farther than before: the first bytes are read more than once."""
        piece = self._stream.read(size)
        if self._told < self.tell() < self._total:
            self._told = self.tell()
            self._progress(self._told, self._total)
        return piece


def _check_text(text: object) -> None:
    if not isinstance(text, (str, bytes)):
        raise TypeError(f"HTML is a str or bytes: {text!r}")


def parse_fragment(text: str | bytes, maker: dom.Document | dom.Component, container: str = "div") -> dom.DocumentFragment:
    """Parse a part of a page as if it stood in an element `container`, and give a fragment of this document or component.

    Raise TypeError for what is no text, or makes no nodes."""
    _check_text(text)
    if not isinstance(maker, (dom.Document, dom.Component)):
        raise TypeError(f"a document or a component makes nodes: {maker!r}")
    parser = html5lib.HTMLParser(tree=lambda _: _Builder(maker.createDocumentFragment()))
    fragment: dom.DocumentFragment = parser.parseFragment(text, container=container, scripting=True)
    fragment.normalize()
    return fragment


def serialize(node: dom.Node) -> str:
    """Give the HTML of a node and of all that is below it, with what is carried beside.

    Raise ValueError for a tree that HTML can't write, as a `br` with children. Not all such trees are found: a `p` in a `p` is written, and
    read again as other nodes."""
    _check_node(node)
    return written(Walker(node)).replace("\r", "&#13;")


def _check_node(node: object) -> None:
    if not isinstance(node, dom.Node):
        raise TypeError(f"no node: {node!r}")


def doctype_of(document: dom.Document) -> Doctype | None:
    """Give the doctype that is carried beside a document, or None."""
    beside = document._owner.beside.get(document._name)
    return beside.doctype if beside else None


def carried(maker: dom.Document | dom.Component) -> list[Carried]:
    """Give what is carried beside the nodes of this document's page, or of a component, in the order in which they were made."""
    return [thing for name, beside in maker._owner.beside.items() for thing in _things(maker._owner.node(name), beside)]


def drop_carried(node: dom.Node, name: str | None = None) -> None:
    """Drop the attribute `name` that is carried beside a node or, without a name, all that is: attributes, its name, its namespace, its
    doctype. What is not there is passed over."""
    _check_node(node)
    beside = node._owner.beside.get(node._name)
    if beside is not None and name is not None:
        beside.drop(name)
    elif name is None:
        node._owner.beside.pop(node._name, None)


def _things(node: Any, beside: Beside) -> Iterator[Carried]:
    if beside.doctype:
        yield Carried(node, "doctype", beside.doctype.name)
    if beside.name:
        yield Carried(node, "name", beside.name)
    if beside.namespace != HTML:
        yield Carried(node, "namespace", beside.namespace)
    for key, value in beside.attributes.items():
        yield Carried(node, f"attribute {qualified(key)}", value)


_BUILDER: Any = builders.getDomModule(dom)


class _Node(_BUILDER.NodeBuilder):
    """A node as html5lib's parser asks for it, over one of ours."""

    def __init__(self, node: Any) -> None:
        super().__init__(node)
        beside = node._owner.beside.get(node._name)
        self.name = beside.name if beside and beside.name else node.nodeName
        self._namespace = beside.namespace if beside else HTML

    namespace = property(lambda self: self._namespace)

    @property
    def attributes(self) -> Attributes:
        """The attributes, with those that are carried beside."""
        return Attributes(self.element)

    @attributes.setter
    def attributes(self, attributes: dict[Key, str]) -> None:
        if attributes:
            Attributes(self.element).update(attributes)

    def insertText(self, data: str, insertBefore: Any = None) -> None:
        """Insert a Text."""
        text = self.element._owner.make_data("text", data)
        self.element.insertBefore(text, insertBefore.element if insertBefore else None)

    def reparentChildren(self, newParent: Any) -> None:
        """Move the children to another node."""
        newParent.element.append(*self.element.childNodes)

    def cloneNode(self) -> Any:
        """Give a clone without children."""
        return _Node(self.element.cloneNode(False))


class _Builder(_BUILDER.TreeBuilder):
    """Builds a page in a document, or a part of one below a fragment."""

    def __init__(self, place: Any) -> None:
        self.dom: Any = place
        self._owner: Owner = place._owner
        super().__init__(True)

    def build(self, page: str, progress: Progress) -> None:
        """Build a whole page as html5-parser reads it, and tell now and then how many of its parts stand."""
        parts = list(parts_of_page(page))
        above = [self.dom]
        for at, part in enumerate(parts):
            if part is None:
                above.pop()
            elif part.kind == "doctype":
                self.insertDoctype({"name": part.value, **{name: value or None for name, value in part.attributes.items()}})
            else:
                node = above[-1].appendChild(self._made(part))
                above += [node] * (part.kind == "element")
            if at % _TOLD_EACH == _TOLD_EACH - 1:
                progress(at + 1, len(parts))

    def _made(self, part: Part) -> Any:
        """Make a node as html5-parser has read it."""
        if part.kind != "element":
            return self._owner.make_data(part.kind, part.value)
        element = self._owner.make_element(part.value)
        if part.attributes:
            Attributes(element).update(part.attributes.items())
        return element

    def documentClass(self) -> Any:
        """Give what the parser appends to."""
        return weakref.proxy(self)

    def insertDoctype(self, token: dict[str, Any]) -> None:
        """Carry the doctype beside the document."""
        doctype = Doctype(token["name"], token["publicId"], token["systemId"], len(self.dom.childNodes))
        beside_of(self._owner, self.dom._name).doctype = doctype

    def elementClass(self, name: str, namespace: str | None = None) -> _Node:
        """Make an element; its name and its namespace are carried beside it where it can't have them."""
        element = self._owner.make_element(_NOT_IN_A_NAME.sub("_", name))
        if element.nodeName != name:
            beside_of(self._owner, element._name).name = name
        if namespace is not None and namespace != HTML:
            beside_of(self._owner, element._name).namespace = namespace
        return _Node(element)

    def commentClass(self, data: str) -> _Node:
        """Make a Comment."""
        return _Node(self._owner.make_data("comment", data))

    def fragmentClass(self) -> _Node:
        """Make a fragment."""
        return _Node(self._owner.make("new fragment", "#document-fragment"))
