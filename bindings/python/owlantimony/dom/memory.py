"""What was read of one owner's trees, remembered until a change forgets it."""
from __future__ import annotations

__all__ = ["Memory"]

LONG = 32
ASKED_ALONE = 64


class Memory:
    """Parents and lists of children, by the nodes' names, as the engine answered them.

    Where a list of children is remembered, so is the parent of each child in it. So a node whose parent is not remembered stands in no
    list that is. A list that was long when a change forgot it is not asked for at once: the next few neighbours are asked for alone.
    """

    __slots__ = ("parents", "children", "_places", "_alone")

    def __init__(self) -> None:
        self.parents: dict[str, str | None] = {}
        self.children: dict[str, tuple[str, ...]] = {}
        self._places: dict[str, dict[str, int]] = {}
        self._alone: dict[str, int] = {}

    def learn_children(self, parent: str, children: tuple[str, ...]) -> None:
        """Remember an answer to `children`."""
        self._alone.pop(parent, None)
        self.children[parent] = children
        self.parents.update(dict.fromkeys(children, parent))

    def place(self, parent: str, child: str) -> int:
        """Give the index of a child in a list that is remembered."""
        places = self._places.get(parent)
        if places is None:
            places = self._places[parent] = {name: at for at, name in enumerate(self.children[parent])}
        return places[child]

    def asks_alone(self, parent: str) -> bool:
        """Give whether a neighbour below this node is to be asked for alone, and count that it is."""
        left = self._alone.get(parent, 0)
        if left > 0:
            self._alone[parent] = left - 1
        return left > 0

    def forget_children(self, parent: str) -> None:
        """Forget a list: children come to this node, or leave it."""
        children = self.children.pop(parent, ())
        self._places.pop(parent, None)
        if len(children) > LONG or parent in self._alone:
            self._alone[parent] = ASKED_ALONE

    def forget_parent(self, node: str) -> None:
        """Forget where a node stands: it leaves its parent, or gets another."""
        parent = self.parents.pop(node, None)
        if parent is not None:
            self.forget_children(parent)

    def forget_all(self) -> None:
        """Forget everything: a change moved more nodes than it names."""
        for parent in list(self.children):
            self.forget_children(parent)
        self.parents.clear()
