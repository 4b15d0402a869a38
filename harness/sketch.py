"""The trees and ranges of a script in the making, as commands change them: enough to know what each line makes and where it stands.

It is no engine: attributes, slots, events, cursors, observers and the data of Texts are not here, for no name comes of them.
"""

HOSTS = ("article", "aside", "blockquote", "body", "div", "footer", "h1", "h2", "h3", "h4", "h5", "h6", "header", "main", "nav", "p",
         "section", "span", "x-a")
DATA = ("text", "comment")


class Refused(Exception):
    """A line that the protocol refuses."""


def refuse_where(holds: bool) -> None:
    if holds:
        raise Refused


class Node:
    """A node: its kind, its name if it is an element, its place, and the length of its data."""

    def __init__(self, kind: str, tag: str = "", units: int = 0) -> None:
        self.kind, self.tag, self.units = kind, tag, units
        self.parent: str | None = None
        self.children: list[str] = []


class Owner:
    """The page or a component: its nodes by name, its ranges, each two boundary points, and how many of the others it has made."""

    def __init__(self, word: str, root: Node) -> None:
        self.word, self.letter, self.hosts, self.attached = word, "n" if word == "p" else "m", set(), 0
        self.nodes = {self.letter + "0": root}
        self.points: dict[str, list[tuple[str, int]]] = {}
        self.counts = {"r": 0, "i": 0, "w": 0, "o": 0}

    def add(self, node: Node) -> str:
        name = f"{self.letter}{len(self.nodes)}"
        self.nodes[name] = node
        return name

    def number(self, letter: str) -> str:
        self.counts[letter] += 1
        return f"{letter}{self.counts[letter] - 1}"

    # ---- trees

    def chain(self, name: str | None) -> list[str]:
        """A node and what is above it."""
        found = []
        while name:
            found.append(name)
            name = self.nodes[name].parent
        return found

    def root(self, name: str) -> str:
        return self.chain(name)[-1]

    def below(self, name: str) -> list[str]:
        """A node and all below it, in tree order."""
        return [name, *(inner for child in self.nodes[name].children for inner in self.below(child))]

    def index(self, name: str) -> int:
        return self.nodes[self.nodes[name].parent].children.index(name)

    def next(self, name: str) -> str | None:
        siblings = self.nodes[self.nodes[name].parent].children if self.nodes[name].parent else [name]
        return siblings[siblings.index(name) + 1] if siblings[-1] != name else None

    def length(self, name: str) -> int:
        node = self.nodes[name]
        return node.units if node.kind in DATA else len(node.children)

    def move_points(self, moved) -> None:
        """Each boundary point goes where `moved` says."""
        for points in self.points.values():
            points[:] = [moved(*point) for point in points]

    def take(self, name: str) -> None:
        """A node leaves its parent, if it has one."""
        parent = self.nodes[name].parent
        if not parent:
            return
        index, below = self.index(name), set(self.below(name))
        self.move_points(lambda node, offset: (parent, index) if node in below else (node, offset - (node == parent and offset > index)))
        self.nodes[parent].children.remove(name)
        self.nodes[name].parent = None

    def insert(self, parent: str, name: str, child: str | None) -> None:
        """A node, or the children of a fragment, come into a parent before its child, or last."""
        child = self.next(name) if child == name else child
        given = list(self.nodes[name].children) if self.nodes[name].kind == "fragment" else [name]
        if self.nodes[name].kind == "fragment":
            for one in given:
                self.take(one)
        if child:
            index = self.index(child)
            self.move_points(lambda node, offset: (node, offset + len(given) * (node == parent and offset > index)))
        for one in given:
            self.take(one)
            children = self.nodes[parent].children
            children.insert(children.index(child) if child else len(children), one)
            self.nodes[one].parent = parent

    def check(self, parent: str, name: str, child: str | None, replaced: bool = False) -> None:
        """Validity of an insertion, or of a replacement of the child."""
        into, node = self.nodes[parent], self.nodes[name]
        refuse_where(into.kind not in ("document", "fragment", "shadow", "element") or name in self.chain(parent))
        refuse_where(child is not None and self.nodes[child].parent != parent)
        refuse_where(node.kind not in ("fragment", "element", *DATA))
        if into.kind != "document":
            return
        kinds = [self.nodes[one].kind for one in node.children] if node.kind == "fragment" else [node.kind]
        others = [one for one in into.children if self.nodes[one].kind == "element" and not (replaced and one == child)]
        refuse_where("text" in kinds or kinds.count("element") > 1 or ("element" in kinds and bool(others)))

    def replace(self, parent: str, name: str, child: str) -> None:
        self.check(parent, name, child, replaced=True)
        reference = self.next(child)
        reference = self.next(name) if reference == name else reference
        self.take(child)
        self.insert(parent, name, reference)

    # ---- data

    def replace_data(self, name: str, offset: int, count: int, units: int) -> None:
        node = self.nodes[name]
        count = min(count, node.units - offset)

        def moved(at: str, place: int) -> tuple[str, int]:
            if at != name or place <= offset:
                return at, place
            return at, offset if place <= offset + count else place + units - count

        self.move_points(moved)
        node.units += units - count

    def split(self, name: str, offset: int) -> str:
        node = self.nodes[name]
        refuse_where(offset > node.units)
        tail = self.add(Node("text", units=node.units - offset))
        if node.parent:
            parent, index = node.parent, self.index(name)
            self.insert(parent, tail, self.next(name))
            self.move_points(lambda at, place: (tail, place - offset) if at == name and place > offset
                             else (at, place + (at == parent and place == index + 1)))
        self.replace_data(name, offset, node.units, 0)
        return tail

    def normalize(self, top: str) -> None:
        for name in [name for name in self.below(top)[1:] if self.nodes[name].kind == "text"]:
            if not self.nodes[name].parent:
                continue
            if self.nodes[name].units == 0:
                self.take(name)
                continue
            while (behind := self.next(name)) and self.nodes[behind].kind == "text":
                self.join(name, behind)

    def join(self, name: str, behind: str) -> None:
        length, place = self.nodes[name].units, (self.nodes[behind].parent, self.index(behind))
        self.nodes[name].units += self.nodes[behind].units

        def moved(at: str, offset: int) -> tuple[str, int]:
            if at == behind:
                return name, length + offset
            return (name, length) if (at, offset) == place else (at, offset)

        self.move_points(moved)
        self.take(behind)

    def set_text(self, name: str, units: int) -> None:
        node = self.nodes[name]
        if node.kind in DATA:
            self.replace_data(name, 0, node.units, units)
        elif node.kind != "document":
            text = self.add(Node("text", units=units)) if units else None
            for child in list(node.children):
                self.take(child)
            if text:
                self.insert(name, text, None)

    # ---- ranges

    def key(self, point: tuple[str, int]) -> list[float]:
        """What boundary points of one tree are ordered by."""
        chain = self.chain(point[0])[::-1]
        return [self.index(name) + 0.5 for name in chain[1:]] + [point[1]]

    def set_end(self, name: str, is_end: bool, point: tuple[str, int]) -> None:
        refuse_where(point[1] > self.length(point[0]))
        points = self.points[name]
        points[is_end] = point
        other = points[not is_end]
        start, end = points
        if self.root(other[0]) != self.root(point[0]) or self.key(start) > self.key(end):
            points[not is_end] = point

    def cut(self, name: str, into: str | None) -> None:
        """Takes out what is in a range, and puts it into a fragment if there is one. The range collapses."""
        start, end = self.points[name]
        place = start
        if start[0] not in self.chain(end[0]):
            top = next(one for one in self.chain(start[0]) if self.nodes[one].parent in self.chain(end[0]))
            place = self.nodes[top].parent, self.index(top) + 1
        self.cut_between(start, end, into)
        self.points[name] = [place, place]

    def clone(self, name: str, into: str | None, units: int = 0) -> str | None:
        if into is None:
            return None
        copy = self.add(Node(self.nodes[name].kind, self.nodes[name].tag, units))
        self.insert(into, copy, None)
        return copy

    def cut_data(self, name: str, start: int, end: int, into: str | None) -> None:
        self.clone(name, into, end - start)
        self.replace_data(name, start, end - start, 0)

    def cut_between(self, start: tuple[str, int], end: tuple[str, int], into: str | None) -> None:
        if start == end:
            return
        if start[0] == end[0] and self.nodes[start[0]].kind in DATA:
            self.cut_data(start[0], start[1], end[1], into)
            return
        starts, ends = self.chain(start[0]), self.chain(end[0])
        common = next(name for name in starts if name in ends)
        first = None if start[0] == common else starts[starts.index(common) - 1]
        last = None if end[0] == common else ends[ends.index(common) - 1]
        inner = self.nodes[common].children[self.index(first) + 1 if first else start[1]:self.index(last) if last else end[1]]
        if first:
            self.cut_side(first, start, (first, self.length(first)), into)
        for name in inner:
            self.take(name)
            if into:
                self.insert(into, name, None)
        if last:
            self.cut_side(last, (last, 0), end, into)

    def cut_side(self, name: str, start: tuple[str, int], end: tuple[str, int], into: str | None) -> None:
        if self.nodes[name].kind in DATA:
            self.cut_data(name, start[1], end[1], into)
        else:
            self.cut_between(start, end, self.clone(name, into))

    def insert_node(self, name: str, node: str) -> None:
        (start, offset), end = self.points[name]
        is_collapsed, is_text = (start, offset) == end, self.nodes[start].kind == "text"
        refuse_where(self.nodes[start].kind == "comment" or node == start or (is_text and not self.nodes[start].parent))
        children = self.nodes[start].children
        reference = start if is_text else children[offset] if offset < len(children) else None
        parent = self.nodes[start].parent if is_text else start
        self.check(parent, node, reference)
        if is_text:
            reference = self.split(start, offset)
        reference = self.next(node) if reference == node else reference
        self.take(node)
        count = len(self.nodes[node].children) if self.nodes[node].kind == "fragment" else 1
        behind = (self.index(reference) if reference else self.length(parent)) + count
        self.insert(parent, node, reference)
        if is_collapsed:
            self.set_end(name, True, (parent, behind))
