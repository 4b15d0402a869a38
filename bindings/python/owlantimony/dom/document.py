"""Documents, fragments and shadow roots, and what makes nodes."""
from __future__ import annotations

from collections.abc import Callable
from types import TracebackType
from typing import Any
from xml.dom import NotSupportedErr

from .attributes import Attr
from .callbacks import callback_or_error
from .characterdata import Comment, Text
from .cloning import clone
from .element import Element
from .engine import Lines
from .extension import native
from .nativeowner import new_engine, new_owner
from .node import Node
from .owner import NODE_CLASSES, Owner, name_or_error
from .parents import ParentNode
from .ranges import Range
from .traversal import NodeIterator, NodeNameFilter, TreeWalker

__all__ = ["DOMImplementation", "Document", "DocumentFragment", "NodeFactory", "ShadowRoot", "getDOMImplementation"]


class NodeFactory:
    """What a document and a component make: nodes, ranges, iterators, walkers and microtasks of their own."""

    __slots__ = ()
    _owner: Owner

    def _made(self, node: Any) -> Any:
        return node

    def createElement(self, name: str, /) -> Element:
        """Make an element. Raise InvalidCharacterErr for what is no name here: a letter or `_`, then letters, digits, `-` and `_`."""
        return self._made(self._owner.make_element(name))

    def createTextNode(self, data: str, /) -> Text:
        """Make a Text."""
        return self._made(self._owner.make_data("text", data))

    def createComment(self, data: str, /) -> Comment:
        """Make a Comment."""
        return self._made(self._owner.make_data("comment", data))

    def createDocumentFragment(self) -> DocumentFragment:
        """Make an empty fragment."""
        return self._made(self._owner.make("new fragment", "#document-fragment"))

    def createDocument(self) -> Document:
        """Make one more document of this owner, empty."""
        return self._owner.make_document()

    def importNode(self, node: Node, deep: bool = False) -> Any:
        """Give a clone of a node of another document of this owner, with this node document.

        Raise NotSupportedErr for a document or a shadow root, and WrongDocumentErr for another owner's node."""
        if isinstance(node, Document):
            raise NotSupportedErr(f"not-supported: {node!r} is a document")
        self._owner.name_of(node)
        return self._made(clone(node, deep))

    def createRange(self) -> Range:
        """Make a range at the start of the first document, or of a component's shadow root."""
        return Range(self._owner)

    def createNodeIterator(self, root: Node, whatToShow: int = 0xFFFFFFFF, filter: NodeNameFilter | None = None) -> NodeIterator:
        """Make an iterator over a tree, which changes of the tree do not confuse."""
        return NodeIterator(self._owner, root, whatToShow, filter)

    def createTreeWalker(self, root: Node, whatToShow: int = 0xFFFFFFFF, filter: NodeNameFilter | None = None) -> TreeWalker:
        """Make a walker over a tree."""
        return TreeWalker(self._owner, root, whatToShow, filter)

    def queueMicrotask(self, callback: Callable[[], Any]) -> None:
        """Call back when the turn ends, after what was queued before."""
        self._owner.callbacks.queue(callback_or_error(callback))

    def end_turn(self) -> None:
        """End the open turn: call microtasks, and observers that have records, until nothing is left.

        It also ends where another owner acts, and where the document is closed. Raise what callbacks raised in an earlier end or in this
        one, as `Document.onerror` says."""
        self._owner.engine.end_turn()


@native
class Document(NodeFactory, ParentNode):
    """A document (DOM Standard, #interface-document).

    `Document()` opens a session, and is the page's first document there. `close`, or the end of a `with` block, frees it all: every node,
    range and component of the session.
    """

    nodeType = Node.DOCUMENT_NODE
    doctype = None
    """None: no document has a doctype. `owlantimony.html` carries it beside the document."""
    __slots__ = ()

    def __new__(cls, session: Lines | None = None) -> Any:
        """Open the page over a session of its own, or over what has the methods of one."""
        return new_owner(new_engine(session), "p").node("n0")

    def __init__(self, session: Lines | None = None) -> None:
        """Do nothing more."""

    @classmethod
    def fromstring(cls, page: str | bytes) -> Document:
        """Parse a page of HTML, and give its document, with a session of its own. `owlantimony.html.parse`, which does it, wants html5lib."""
        from .. import html

        return html.parse(page)

    def __enter__(self) -> Document:
        return self

    def __exit__(self, kind: type[BaseException] | None, fault: BaseException | None, trace: TracebackType | None) -> None:
        if fault is None or isinstance(fault, Exception):
            self.close()
        else:
            self._owner.engine.close()

    def close(self) -> None:
        """End the open turn, with its callbacks, and free the session. Raise then what callbacks raised, as `onerror` says.

        Raise WrongThreadError in another thread than its own. The end of a `with` block does the same, also where its body raised an
        exception; where that is none for a program, as KeyboardInterrupt, no callback is called."""
        try:
            self._owner.engine.end_turn()
        finally:
            self._owner.engine.close()

    @property
    def onerror(self) -> Callable[[Exception], Any] | None:
        """What is called with each exception that a callback raises, the page's or a component's, at once; None at first.

        Where it is None, `dispatchEvent` raises what its own callbacks raised, when all have been called: one exception as it is, more as
        `CallbackErrors`. What is raised in the end of a turn is kept, also where another owner's call ends it: `end_turn` and `close` raise
        it then, and no other call. A RuntimeWarning tells of it where all documents are dropped before."""
        return self._owner.engine.onerror

    @onerror.setter
    def onerror(self, hook: Callable[[Exception], Any] | None) -> None:
        self._owner.engine.onerror = None if hook is None else callback_or_error(hook)

    def _made(self, node: Any) -> Any:
        if self._owner.has_documents and node.ownerDocument != self:
            self.adoptNode(node)
        return node

    @property
    def textContent(self) -> str | None:
        """None: a document has no text. Setting it changes nothing."""
        return None

    @textContent.setter
    def textContent(self, text: str | None) -> None:
        """Change nothing."""

    @property
    def documentElement(self) -> Element | None:
        """The child that is an element, or None."""
        return self.firstElementChild

    @property
    def implementation(self) -> DOMImplementation:
        """What makes documents."""
        return getDOMImplementation()

    def adoptNode(self, node: Node) -> Any:
        """Take a node out of its parent, and give it and all below it this node document (DOM Standard, #dom-document-adoptnode).

        Raise NotSupportedErr for a document, and HierarchyRequestErr for a shadow root."""
        self._owner.ask(f"adopt {self._name} {self._owner.name_of(node)}")
        self._owner.memory.forget_parent(node._name)
        return node

    def createAttribute(self, name: str) -> Attr:
        """Make an attribute of no element yet: `element.attributes[name] = attribute` gives the element its value.

        Raise InvalidCharacterErr for what is no name here."""
        return Attr(name_or_error(name))

    def createElementNS(self, namespaceURI: str | None, qualifiedName: str) -> Element:
        """Make an element without a namespace, which is None or empty. Raise NotSupportedErr for one with a namespace."""
        if namespaceURI:
            raise NotSupportedErr(f"not-supported: the namespace {namespaceURI}")
        return self.createElement(qualifiedName)


@native
class DocumentFragment(ParentNode):
    """A fragment (DOM Standard, #interface-documentfragment): inserting it inserts its children."""

    nodeType = Node.DOCUMENT_FRAGMENT_NODE
    __slots__ = ()


@native
class ShadowRoot(DocumentFragment):
    """The root of a component's closed tree (DOM Standard, #interface-shadowroot)."""

    mode = "closed"
    __slots__ = ()


class DOMImplementation:
    """Makes documents, as `xml.dom` asks for it."""

    def hasFeature(self, feature: str, version: str | None = None) -> bool:
        """Give whether this is a DOM of level 1 or 2."""
        return feature.lower() in ("core", "xml") and version in (None, "", "1.0", "2.0")

    def createDocument(self, namespaceURI: str | None, qualifiedName: str | None, doctype: Any = None) -> Document:
        """Open a session, and give its document, with an element of this name if one is given."""
        if namespaceURI or doctype is not None:
            raise NotSupportedErr("not-supported: a document with a namespace or a doctype")
        document = Document()
        if qualifiedName:
            document.appendChild(document.createElement(qualifiedName))
        return document

    def createDocumentType(self, qualifiedName: str, publicId: str, systemId: str) -> Any:
        """Raise NotSupportedErr: no document has a doctype. `owlantimony.html` carries it beside the document."""
        raise NotSupportedErr("not-supported: a doctype")


_IMPLEMENTATION = DOMImplementation()


def getDOMImplementation(features: Any = None) -> DOMImplementation:
    """Give the implementation, as `xml.dom` asks for it."""
    return _IMPLEMENTATION


NODE_CLASSES["#document"] = Document
NODE_CLASSES["#document-fragment"] = DocumentFragment
NODE_CLASSES["#shadow-root"] = ShadowRoot
