"""Components: the owners of closed shadow trees."""
from __future__ import annotations

from ..pickling import NotPickled
from .document import NodeFactory, ShadowRoot
from .element import Element
from .engine import Engine
from .nativeowner import new_owner
from .owner import Owner

__all__ = ["Component"]


class Component(NodeFactory, NotPickled):
    """The owner of a closed shadow tree: it alone reaches the tree, makes nodes for it and sees events inside it.

    Whoever attached it hands it to the code of the widget, and keeps no way in. The nodes of another owner are `ForeignNode`s here.
    """

    __slots__ = ("_owner",)

    def __init__(self) -> None:
        raise TypeError("components are made by attachShadow")

    @classmethod
    def _of(cls, engine: Engine, word: str) -> Component:
        component = object.__new__(cls)
        component._owner = new_owner(engine, word)
        return component

    @property
    def root(self) -> ShadowRoot:
        """The shadow root."""
        return self._owner.node("m0")

    def getElementById(self, id: str) -> Element | None:
        """Give the first element of the closed tree with this id, or None."""
        return self.root.getElementById(id)

    def __repr__(self) -> str:
        return f"<Component {self._owner.word}>"
