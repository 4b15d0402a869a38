"""What nodes with children have, and what children have (the Standard's mixins ParentNode and ChildNode)."""
from __future__ import annotations

import re
from collections.abc import Iterator
from typing import TYPE_CHECKING, Any
from xml.dom import HierarchyRequestErr
from xml.dom.minicompat import NodeList

from .extension import native
from .node import Node
from .owner import NAME
from .treetext import text_in, tokens

if TYPE_CHECKING:
    from .element import Element
    from .owner import Owner

__all__ = ["ChildNode", "ParentNode"]

_SPACES = re.compile("[\t\n\f\r ]+")
_NOT_IN_A_VALUE = re.compile("[\\\\\n\f\r]")


def _check_owner(owner: Owner, nodes: tuple[Node | str, ...]) -> None:
    """Raise WrongDocumentErr where one of the nodes is another owner's, and TypeError for what is neither a node nor a string."""
    for node in nodes:
        if not isinstance(node, str):
            owner.name_of(node)


def _one_node(owner: Owner, nodes: tuple[Node | str, ...]) -> Any:
    """Convert nodes and strings into one node (DOM Standard, #converting-nodes-into-a-node): more than one go into a fragment."""
    _check_owner(owner, nodes)
    found = [owner.make_data("text", node) if isinstance(node, str) else node for node in nodes]
    if len(found) == 1:
        return found[0]
    fragment = owner.make("new fragment", "#document-fragment")
    for node in found:
        fragment.appendChild(node)
    return fragment


@native
class ParentNode(Node):
    """A document, a fragment, a shadow root or an element.

    Where a call takes several nodes they go into a fragment first, as the Standard says; if the fragment is refused they stay in it.
    """

    __slots__ = ()

    def __iter__(self) -> Iterator[Any]:
        """Give the children that are there when the loop begins."""
        return iter(self._owner.child_nodes(self._name))

    def __len__(self) -> int:
        """Give how many children there are."""
        return len(self.childNodes)

    def __contains__(self, child: object) -> bool:
        """Give whether something is a child of this node."""
        return getattr(child, "_owner", None) is self._owner and getattr(child, "parentNode", None) is self

    def iter(self, *names: str) -> Iterator[Element]:
        """Give this node, if it is an element, and the elements below, in tree order; where names are given, those with one of them.

        They are the elements that are there when this is called."""
        own: list[Any] = [self] if self.nodeType == Node.ELEMENT_NODE else []
        return iter([node for node in own + self._query("*") if not names or node.nodeName in names])

    def itertext(self) -> Iterator[str]:
        """Give the data of each Text below, in tree order, as they are when this is called."""
        return iter([token.value for token in tokens(self._owner.ask(f"tree {self._name}")) if token.node_name == "#text"])

    @property
    def textContent(self) -> str | None:
        """The data of all Texts below. Setting it puts one Text, or nothing, in the place of the children."""
        return text_in(self._owner.ask(f"tree {self._name}"))

    @textContent.setter
    def textContent(self, text: str | None) -> None:
        self._owner.set_text(self._name, text or "")

    @property
    def children(self) -> NodeList[Element]:
        """The children that are elements, as they are now."""
        return NodeList(node for node in self.childNodes if node.nodeType == Node.ELEMENT_NODE)

    @property
    def firstElementChild(self) -> Element | None:
        """The first child that is an element, or None."""
        return next(iter(self.children), None)

    @property
    def lastElementChild(self) -> Element | None:
        """The last child that is an element, or None."""
        return next(iter(reversed(self.children)), None)

    @property
    def childElementCount(self) -> int:
        """How many children are elements."""
        return len(self.children)

    def append(self, *nodes: Node | str) -> None:
        """Append nodes and strings (DOM Standard, #dom-parentnode-append)."""
        self.appendChild(_one_node(self._owner, nodes))

    def prepend(self, *nodes: Node | str) -> None:
        """Insert nodes and strings before the first child (DOM Standard, #dom-parentnode-prepend)."""
        node = _one_node(self._owner, nodes)
        self.insertBefore(node, self.firstChild)

    def replaceChildren(self, *nodes: Node | str) -> None:
        """Put nodes and strings in the place of all children (DOM Standard, #dom-parentnode-replacechildren).

        Where several leave, an observer gets one record of what leaves and one of what comes; the Standard has one for both."""
        node = _one_node(self._owner, nodes)
        self._check_insertion(node)
        children = list(self.childNodes)
        if self.nodeType != Node.DOCUMENT_NODE and len(children) == 1:
            self.replaceChild(node, children[0])
            return
        if self.nodeType != Node.DOCUMENT_NODE:
            self._owner.change(f'text {self._name} ""')
        else:
            for child in children:
                child.remove()
        if node.nodeType != Node.DOCUMENT_FRAGMENT_NODE or node.hasChildNodes():
            self.appendChild(node)

    def _check_insertion(self, node: Node) -> None:
        """Raise what appending `node` would raise (DOM Standard, #concept-node-ensure-pre-insertion-validity), and change nothing."""
        if node.nodeType == Node.DOCUMENT_NODE or node.nodeName == "#shadow-root" or node.contains(self):
            raise HierarchyRequestErr(f"hierarchy: {node!r} can't stand below {self!r}")
        if self.nodeType == Node.DOCUMENT_NODE:
            coming = list(node.childNodes) if node.nodeType == Node.DOCUMENT_FRAGMENT_NODE else [node]
            kinds = [child.nodeType for child in coming]
            elements = kinds.count(Node.ELEMENT_NODE)
            if Node.TEXT_NODE in kinds or elements > 1 or (elements and self.firstElementChild is not None):
                raise HierarchyRequestErr(f"hierarchy: a document has one element and no Text: {self!r}")

    def querySelector(self, selectors: str) -> Element | None:
        """Give the first element below that matches, or None. Raise SyntaxErr for text that is no selector here."""
        return next(iter(self._query(selectors)), None)

    def querySelectorAll(self, selectors: str) -> NodeList[Element]:
        """Give all elements below that match, in tree order. Raise SyntaxErr for text that is no selector here."""
        return self._query(selectors)

    def getElementsByTagName(self, name: str) -> NodeList[Element]:
        """Give the elements below with this tag name, or all for "*", as they are now."""
        return self._query(name) if name == "*" or NAME.fullmatch(name) else NodeList()

    def getElementsByClassName(self, names: str) -> NodeList[Element]:
        """Give the elements below that have all of these classes, as they are now."""
        words = [word for word in _SPACES.split(names) if word]
        return self._with_values("class", "~=", words) if words else NodeList()

    def getElementById(self, id: str) -> Element | None:
        """Give the first element below with this id, or None."""
        return next(iter(self._with_values("id", "=", [id])), None) if id else None

    def _with_values(self, name: str, sign: str, values: list[str]) -> NodeList[Element]:
        """Give the elements below whose attribute is, or has as words, these values, also such as no selector can write."""
        quotations = ["'" if '"' in value else '"' for value in values]
        if any(sign in value or _NOT_IN_A_VALUE.search(value) for sign, value in zip(quotations, values)):
            return NodeList(self._owner.node(node) for node in self._holding(name, values, words=sign == "~="))
        return self._query("".join(f"[{name}{sign}{mark}{value}{mark}]" for mark, value in zip(quotations, values)))

    def _holding(self, name: str, values: list[str], words: bool) -> list[str]:
        """Give the names of the elements below whose attribute is, or has as words, these values."""
        found, at = [], self._name
        for token in tokens(self._owner.ask(f"tree {self._name}")):
            if token.what == "open":
                at = token.name
            elif token.name == name and at != self._name:
                there = _SPACES.split(token.value) if words else [token.value]
                if all(value in there for value in values):
                    found.append(at)
        return found

    def _query(self, selectors: str) -> NodeList[Element]:
        return NodeList(self._owner.query(self._name, selectors))


@native
class ChildNode(Node):
    """An element, a Text or a Comment. Several nodes go into a fragment first, as `ParentNode` says."""

    __slots__ = ()

    @property
    def previousElementSibling(self) -> Element | None:
        """The nearest sibling in front of this node that is an element, or None."""
        return self._element_beside("previousSibling")

    @property
    def nextElementSibling(self) -> Element | None:
        """The nearest sibling behind this node that is an element, or None."""
        return self._element_beside("nextSibling")

    def _element_beside(self, side: str) -> Any:
        at = getattr(self, side)
        while at is not None and at.nodeType != Node.ELEMENT_NODE:
            at = getattr(at, side)
        return at

    def remove(self) -> None:
        """Leave the parent, if there is one."""
        self._owner.remove(self._name)

    def before(self, *nodes: Node | str) -> None:
        """Insert nodes and strings in front of this node (DOM Standard, #dom-childnode-before). Without a parent do nothing."""
        _check_owner(self._owner, nodes)
        parent = self.parentNode
        if parent is None:
            return
        left = _viable(self, nodes, "previousSibling")
        node = _one_node(self._owner, nodes)
        parent.insertBefore(node, parent.firstChild if left is None else left.nextSibling)

    def after(self, *nodes: Node | str) -> None:
        """Insert nodes and strings behind this node (DOM Standard, #dom-childnode-after). Without a parent do nothing."""
        _check_owner(self._owner, nodes)
        parent = self.parentNode
        if parent is not None:
            right = _viable(self, nodes, "nextSibling")
            parent.insertBefore(_one_node(self._owner, nodes), right)

    def replaceWith(self, *nodes: Node | str) -> None:
        """Put nodes and strings in the place of this node (DOM Standard, #dom-childnode-replacewith). Without a parent do nothing."""
        _check_owner(self._owner, nodes)
        parent = self.parentNode
        if parent is None:
            return
        right = _viable(self, nodes, "nextSibling")
        node = _one_node(self._owner, nodes)
        if self._owner.parent(self._name) == parent._name:
            parent.replaceChild(node, self)
        else:
            parent.insertBefore(node, right)


def _viable(node: Node, nodes: tuple[Node | str, ...], side: str) -> Any:
    """Give the nearest sibling on a side that is none of the nodes."""
    sibling = getattr(node, side)
    while sibling is not None and any(sibling is given for given in nodes):
        sibling = getattr(sibling, side)
    return sibling
