"""Trees, slots and event paths after the DOM Standard, written apart from the engine: elements alone, and slots without a name.

A node is an owner's word and a number, as ("c1", 2); number 0 is the page's document or a component's shadow root.
"""
from __future__ import annotations

from collections.abc import Callable, Iterator

PAGE = "p"
Node = tuple[str, int]
# A visit of an event: the node, the phase, the target and the related node as seen there, whether it captures, and the path as seen.
Visit = tuple[Node, int, Node, "Node | None", bool, list[Node]]


class Trees:
    """Where nodes stand, who is a host, and what is assigned to slots. `signal` is called with each slot whose assigned nodes change."""

    def __init__(self, signal: Callable[[Node], None]):
        self.signal = signal
        self.parents, self.children, self.names = {(PAGE, 0): None}, {(PAGE, 0): []}, {(PAGE, 0): "document"}
        self.hosts, self.shadows, self.assigned = {}, {}, {}

    def make(self, node: Node, name: str) -> None:
        """A new node, in no tree."""
        self.parents[node], self.children[node], self.names[node] = None, [], name
        if name == "slot":
            self.assigned[node] = []

    def attach(self, host: Node, component: str) -> None:
        """A closed shadow root for an element."""
        self.make((component, 0), "shadow")
        self.hosts[component], self.shadows[host] = host, component

    def root(self, node: Node) -> Node:
        """The last inclusive ancestor."""
        while self.parents[node] is not None:
            node = self.parents[node]
        return node

    def is_shadow(self, node: Node) -> bool:
        """Whether a node is a shadow root."""
        return self.names[node] == "shadow"

    def ancestors(self, node: Node | None) -> Iterator[Node]:
        """A node's inclusive ancestors."""
        while node is not None:
            yield node
            node = self.parents[node]

    def shadow_including(self, node: Node | None) -> Iterator[Node]:
        """A node's shadow-including inclusive ancestors."""
        while node is not None:
            yield from self.ancestors(node)
            root = self.root(node)
            node = self.hosts[root[0]] if self.is_shadow(root) else None

    def below(self, node: Node) -> Iterator[Node]:
        """A node and all below it, in tree order."""
        yield node
        for child in self.children[node]:
            yield from self.below(child)

    # DOM Standard, 4.2.2: slots

    def find_slot(self, node: Node) -> Node | None:
        """The slot of a host's child: the first one in the host's tree."""
        component = self.shadows.get(self.parents[node])
        return next((slot for slot in self.below((component, 0)) if self.names[slot] == "slot"), None) if component else None

    def find_slottables(self, slot: Node) -> list[Node]:
        """The children of a host whose slot this is."""
        root = self.root(slot)
        return [node for node in self.children[self.hosts[root[0]]] if self.find_slot(node) == slot] if self.is_shadow(root) else []

    def assign(self, slot: Node) -> None:
        """Assigns nodes to a slot, and signals it where they change."""
        found = self.find_slottables(slot)
        if found != self.assigned[slot]:
            self.signal(slot)
            self.assigned[slot] = found

    def assign_tree(self, root: Node) -> None:
        """Assigns nodes to the slots of a tree."""
        for slot in [node for node in self.below(root) if self.names[node] == "slot"]:
            self.assign(slot)

    def signal_fallback(self, parent: Node) -> None:
        """Signals a slot whose children are what it shows, and change."""
        if self.names[parent] == "slot" and self.is_shadow(self.root(parent)) and not self.assigned[parent]:
            self.signal(parent)

    # DOM Standard, 4.2.3: mutation algorithms

    def remove(self, node: Node) -> None:
        """Takes a node out of its parent, if it has one."""
        parent = self.parents[node]
        if parent is None:
            return
        slot = next((slot for slot, nodes in self.assigned.items() if node in nodes), None)
        self.children[parent].remove(node)
        self.parents[node] = None
        if slot:
            self.assign(slot)
        self.signal_fallback(parent)
        if any(self.names[below] == "slot" for below in self.below(node)):
            self.assign_tree(self.root(parent))
            self.assign_tree(node)

    def append(self, parent: Node, node: Node) -> None:
        """Makes a node its new parent's last child."""
        self.remove(node)
        self.children[parent].append(node)
        self.parents[node] = parent
        slot = self.find_slot(node)
        if slot:
            self.assign(slot)
        self.signal_fallback(parent)
        self.assign_tree(self.root(node))

    # DOM Standard, 2.9: dispatching events

    def is_hidden(self, node: Node, viewer: Node) -> bool:
        """Whether a node is in a closed tree in which, and in whose inner trees, the viewer is not."""
        root = self.root(node)
        return self.is_shadow(root) and root not in self.shadow_including(viewer)

    def retarget(self, node: Node | None, viewer: Node) -> Node | None:
        """What is seen in a node's place."""
        while node is not None and self.is_hidden(node, viewer):
            node = self.hosts[self.root(node)[0]]
        return node

    def event_parent(self, node: Node, first: Node, composed: bool) -> Node | None:
        """The next node of an event's path: a node's slot or parent, or a shadow root's host."""
        if self.is_shadow(node):
            return self.hosts[node[0]] if composed or node != self.root(first) else None
        return next((slot for slot, nodes in self.assigned.items() if node in nodes), self.parents[node])

    def path(self, first: Node, related: Node | None, composed: bool) -> list[tuple[Node, Node | None, Node | None]]:
        """The structs of an event's path: the node, the target where it is one, and the related node."""
        target, seen = first, self.retarget(related, first)
        if target == seen and target != related:
            return []
        structs, node = [(first, first, seen)], self.event_parent(first, first, composed)
        while node is not None:
            seen = self.retarget(related, node)
            if self.root(target) in self.shadow_including(node):
                structs.append((node, None, seen))
            elif node == seen:
                break
            else:
                target = node
                structs.append((node, node, seen))
            node = self.event_parent(node, first, composed)
        return structs

    def visits(self, first: Node, related: Node | None, bubbles: bool, composed: bool) -> list[Visit]:
        """The visits of an event, in order."""
        structs, shown, target = self.path(first, related, composed), [], None
        for node, own_target, seen in structs:
            target = own_target or target
            path = [other for other, _, _ in structs if not self.is_hidden(other, node)]
            shown.append((node, own_target is not None, target, seen, path))
        capturing = [(node, 2 if at else 1, target, seen, True, path) for node, at, target, seen, path in reversed(shown)]
        return capturing + [(node, 2 if at else 3, target, seen, False, path) for node, at, target, seen, path in shown if at or bubbles]
