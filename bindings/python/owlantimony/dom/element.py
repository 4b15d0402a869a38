"""Elements."""
from __future__ import annotations

from collections.abc import Mapping
from typing import TYPE_CHECKING, Any
from xml.dom import NotSupportedErr, SyntaxErr
from xml.dom.minicompat import NodeList

from ..strings import quote, unquote_known
from .attributes import Attr, DOMTokenList, NamedNodeMap
from .extension import native
from .node import Node
from .owner import NODE_CLASSES, names_in
from .parents import ChildNode, ParentNode

if TYPE_CHECKING:
    from .components import Component

__all__ = ["Element"]


@native
class Element(ParentNode, ChildNode):
    """An element (DOM Standard, #interface-element). Names are kept as they are given, and none has a namespace."""

    nodeType = Node.ELEMENT_NODE
    shadowRoot = None
    """None: all shadow roots are closed, and `attachShadow` gives the only way in."""
    __slots__ = ()

    @property
    def tagName(self) -> str:
        """The name."""
        return self._owner.kind(self._name)

    @property
    def localName(self) -> str | None:
        """The name: none has a prefix."""
        return self.tagName

    def __repr__(self) -> str:
        return f"<Element {self.tagName} {self._shown}{self._told(self._id_and_class)}>"

    def _id_and_class(self) -> str:
        """Give the attributes by which one knows an element, for a `repr`."""
        return "".join(f" {name}={value!r}" for name in ("id", "class") if (value := self.getAttribute(name)))

    # ---- attributes

    @property
    def attributes(self) -> NamedNodeMap:
        """The attributes by their names, as they are at each moment that one asks."""
        return NamedNodeMap(self)

    def getAttributeNames(self) -> list[str]:
        """Give the names of the attributes, in order."""
        return list(self._owner.attributes(self._name))

    def getAttribute(self, name: str, /) -> str | None:
        """Give an attribute's value, and None where there is none."""
        if name not in self._owner.attributes(self._name):
            return None
        return unquote_known(self._owner.ask(f"attr {self._name} {name}"))

    def setAttribute(self, name: str, value: str) -> None:
        """Give an attribute a value; one that is there keeps its place. Raise InvalidCharacterErr for what is no name here.

        An attribute with this name that `owlantimony.html` carries beside the element is dropped."""
        self._owner.set_attribute(self._name, name, value)

    def removeAttribute(self, name: str) -> None:
        """Take an attribute away, if it is there, or is carried beside the element by `owlantimony.html`."""
        self._owner.unset_attribute(self._name, name)

    def hasAttribute(self, name: str, /) -> bool:
        """Give whether there is such an attribute."""
        return name in self._owner.attributes(self._name)

    def hasAttributes(self) -> bool:
        """Give whether there is any attribute."""
        return bool(self._owner.attributes(self._name))

    def toggleAttribute(self, name: str, force: bool | None = None) -> bool:
        """Take an attribute away where it is there, and else add it, empty; with `force`, only add or only take away. Give whether it is
        there now (DOM Standard, #dom-element-toggleattribute)."""
        there = self.hasAttribute(name)
        wanted = not there if force is None else force
        if wanted and not there:
            self.setAttribute(name, "")
        elif there and not wanted:
            self.removeAttribute(name)
        return wanted

    def getAttributeNode(self, name: str) -> Attr | None:
        """Give an attribute, and None where there is none."""
        return self.attributes.getNamedItem(name)

    @property
    def id(self) -> str:
        """The attribute `id`, empty where there is none."""
        return self.getAttribute("id") or ""

    @id.setter
    def id(self, value: str) -> None:
        self.setAttribute("id", value)

    @property
    def className(self) -> str:
        """The attribute `class`, empty where there is none."""
        return self.getAttribute("class") or ""

    @className.setter
    def className(self, value: str) -> None:
        self.setAttribute("class", value)

    @property
    def slot(self) -> str:
        """The attribute `slot`, empty where there is none."""
        return self.getAttribute("slot") or ""

    @slot.setter
    def slot(self, value: str) -> None:
        self.setAttribute("slot", value)

    @property
    def classList(self) -> DOMTokenList:
        """The classes."""
        return DOMTokenList(self, "class")

    # ---- putting in

    def insertAdjacentElement(self, where: str, element: Element) -> Element | None:
        """Insert an element "beforebegin", "afterbegin", "beforeend" or "afterend", and give it (DOM Standard,
        #dom-element-insertadjacentelement). Where this element would want a parent and has none, insert nothing and give None.

        Raise SyntaxErr for another word, TypeError for another node, and HierarchyRequestErr where the Standard refuses it."""
        self._owner.name_of(element)
        if not isinstance(element, Element):
            raise TypeError(f"no element: {element!r}")
        parent, child = self._adjacent(where)
        return None if parent is None else parent.insertBefore(element, child)

    def insertAdjacentText(self, where: str, data: str) -> None:
        """Insert a Text with these data, where `insertAdjacentElement` would (DOM Standard, #dom-element-insertadjacenttext)."""
        parent, child = self._adjacent(where)
        if parent is not None:
            parent.insertBefore(self._owner.make_data("text", data), child)

    def _adjacent(self, where: str) -> tuple[Any, Any]:
        """Give the parent and the child before which a word says that something is to be inserted (DOM Standard, #insert-adjacent)."""
        place = where.lower()
        if place in ("beforebegin", "afterend"):
            return self.parentNode, self if place == "beforebegin" else self.nextSibling
        if place in ("afterbegin", "beforeend"):
            return self, self.firstChild if place == "afterbegin" else None
        raise SyntaxErr(f"a place is beforebegin, afterbegin, beforeend or afterend: {where!r}")

    # ---- selectors

    def matches(self, selectors: str) -> bool:
        """Give whether this element matches. Raise SyntaxErr for text that is no selector here."""
        return self._owner.ask(f"matches {self._name} {quote(selectors)}") == "true"

    def closest(self, selectors: str) -> Element | None:
        """Give the nearest of this element and those above it that matches, or None. Raise SyntaxErr for text that is no selector here."""
        at: Any = self
        while at is not None and not at.matches(selectors):
            at = at.parentElement
        return at

    # ---- closed trees

    def attachShadow(self, mode: str | Mapping[str, Any] = "closed") -> Component:
        """Give this element a closed shadow tree, and give the component that owns it: the only object by which that tree can be reached.

        `{"mode": "closed"}` does as well. Raise NotSupportedErr where an element of this name can't be a host or is one already, for another
        mode than "closed", and for other options. Hosts are article, aside, blockquote, body, div, footer, h1 to h6, header, main, nav, p,
        section, span, and custom elements: small letters, digits and at least one hyphen."""
        from .components import Component

        if isinstance(mode, Mapping):
            others = [name for name in mode if name != "mode"]
            if others or "mode" not in mode:
                raise NotSupportedErr(f"not-supported: the option of a shadow root is mode: {dict(mode)}")
            mode = mode["mode"]
        if mode != "closed":
            raise NotSupportedErr(f"not-supported: a shadow root that is {mode}")
        return Component._of(self._owner.engine, self._owner.ask(f"attach {self._name}"))

    @property
    def assignedSlot(self) -> None:
        """None: all shadow roots are closed."""

    def assignedNodes(self) -> NodeList[Any]:
        """Give the nodes that are assigned to this slot, an element `slot` of a component: own ones, or `ForeignNode`s."""
        return NodeList(self._owner.seen(name) for name in names_in(self._owner.ask(f"assigned {self._name}")))


NODE_CLASSES["element"] = Element
