"""Writes commands of one owner by the throw of dice, and learns from the replies what there is to speak of.

What it remembers of trees is a guess, good enough that most commands are accepted. A component's author sends no event out, if it is not told
to: an event of its with `composed` has a related node in the same tree, or a target that was never placed. Its listeners neither stop nor
cancel. It attaches components to its own elements, as the page's author does.
"""
PAGE_NAMES = ("div", "section", "p", "span", "b", "i", "a", "x-widget")
COMPONENT_NAMES = ("slot", "slot", "slot", "div", "b", "i", "section")
HOSTS = ("div", "section", "p", "span", "x-widget")
TYPES = ("tick", "change", "slotchange")
STRINGS = ('""', '"a"', '"ab cd"', '"x"', '"\\ud83d\\ude00"', '"\\"quoted\\""', '"abc"')
ATTRIBUTES = ("id", "class", "name", "slot", "lang")
SELECTORS = ("*", "div", "b, i", "div > *", ".a", "[slot=x]", "slot:first-child", "* + *", ":not(.ab)", "section ~ i", "[id]", "b:last-child")
BAD_SELECTORS = ("", ">", "a,", "[x", ":hover", "a >")
SHOWS = ("all", "element", "text", "element,text", "element,comment", "text,comment,fragment")
MOVES = ("parent", "first", "last", "next", "previous", "next-sibling", "previous-sibling")
OBSERVED = ("childList", "attributes", "characterData", "subtree", "attributeOldValue", "characterDataOldValue", "filter=id,slot")
CONTAINERS = ("element", "fragment", "shadow")
TEXTS = ("text", "comment")
# Commands of one word; the tables whose names commands take that do not begin with the table's; the kinds that commands ask for.
MADE_ALONE = ("observer", "range-new", "document")
TABLE_OF = {"extract": "range", "delete": "range", "take": "observer", "disconnect": "observer"}
KINDS_FOR = {"shadow-root": ("element",), "slot-of": ("element", "text")}
# How often each command comes.
WEIGHTS = {
    "new": 26, "document": 1, "append": 26, "insert": 10, "replace": 4, "remove": 6, "adopt": 2, "normalize": 2, "set": 10, "unset": 4,
    "data": 3, "replace-data": 4, "split": 4, "text": 2, "tree": 3, "attr": 2, "parent": 2, "docof": 2, "children": 3, "contains": 2,
    "connected": 2, "shadow-root": 1, "slot-of": 2, "range-new": 3, "range-start": 5, "range-end": 5, "range-collapse": 1,
    "range-drop": 1, "range-get": 4, "range-text": 3, "extract": 2, "delete": 1, "insert-node": 2, "iter-new": 2, "iter-next": 8,
    "iter-prev": 3, "iter-at": 2, "walk-new": 2, "walk": 8, "walk-at": 2, "walk-set": 2, "query": 3, "matches": 2, "listen": 6,
    "unlisten": 2, "dispatch": 6, "attach": 1, "observer": 1, "observe": 4, "disconnect": 1, "take": 2, "micro": 3, "wrong": 2,
}  # fmt: skip


class Author:
    """An owner's author: `line` gives a line, and `learn` takes in that it was accepted."""

    def __init__(self, owner, dice, sends_out=False):
        self.owner, self.dice, self.sends_out = owner, dice, sends_out
        self.is_page = owner == "p"
        self.first = "n0" if self.is_page else "m0"
        self.kinds = {self.first: "document" if self.is_page else "shadow"}
        self.elements = {}
        self.parents = {self.first: None}
        self.fixed = {self.first}
        self.placed = set()
        self.tables = {"range": [], "iter": [], "walk": [], "observer": []}
        self.listeners = []
        self.weights = {**WEIGHTS, **({} if self.is_page else {"assigned": 5})}

    def line(self):
        """A line of this owner."""
        command = self.dice.choices(list(self.weights), self.weights.values())[0]
        words = getattr(self, "words_of_" + command.replace("-", "_"), lambda: self.plain_words(command))()
        return f"{self.owner} {words}"

    # What there is.

    def one(self, *kinds):
        """A node of one of these kinds, of any if none is given, or else the first node; one of the last made comes more often."""
        names = [name for name, kind in self.kinds.items() if not kinds or kind in kinds] or [self.first]
        return self.dice.choice(names[-8:] if self.dice.random() < 0.5 else names)

    def movable(self):
        """A node that may be placed."""
        names = [name for name, kind in self.kinds.items() if name not in self.fixed and kind not in ("document", "shadow")]
        return self.dice.choice(names[-10:] if self.dice.random() < 0.6 else names) if names else self.first

    def is_above(self, upper, node):
        """Whether a node is thought to be above another one, or is it."""
        steps = 0
        while node is not None and node != upper and steps < 200:
            node, steps = self.parents.get(node), steps + 1
        return node == upper

    def parent_for(self, node):
        """A node below which another one may go."""
        names = [name for name, kind in self.kinds.items() if kind in CONTAINERS and not self.is_above(node, name)] or [self.first]
        return self.dice.choice(names[-6:] if self.dice.random() < 0.4 else names)

    def children(self, parent):
        """The children that a node is thought to have."""
        return [name for name, above in self.parents.items() if above == parent]

    def of_table(self, table):
        """The name of a range, iterator, walker or observer, if there is one."""
        return self.dice.choice(self.tables[table]) if self.tables[table] else None

    def offset(self, node):
        """An offset that a node may have."""
        most = 1 if self.kinds.get(node) in TEXTS else len(self.children(node))
        return self.dice.randint(0, most)

    def some(self, words, chance):
        """Some of these words, in their order, each with a space in front."""
        return "".join(" " + word for word in words if self.dice.random() < chance)

    # The words of commands.

    def plain_words(self, command):
        """The words of a command that takes a node of some kind, a name of a table, or nothing."""
        if command in MADE_ALONE:
            return command
        table = TABLE_OF.get(command, command.partition("-")[0])
        if table in self.tables:
            name = self.of_table(table)
            return f"{command} {name}" if name else self.words_to_make(table)
        if command == "remove":
            return f"remove {self.movable()}"
        return f"{command} {self.one(*KINDS_FOR.get(command, ()))}"

    def words_to_make(self, table):
        """The words that make what a table has."""
        if table in ("iter", "walk"):
            filter_word = self.dice.choice(("", "", " skip=b", " reject=div"))
            return f"{table}-new {self.one()} {self.dice.choice(SHOWS)}{filter_word}"
        return "observer" if table == "observer" else "range-new"

    def words_of_iter_new(self):
        return self.words_to_make("iter")

    def words_of_walk_new(self):
        return self.words_to_make("walk")

    def words_of_wrong(self):
        """Words that are refused."""
        other = "m1" if self.is_page else "n1"
        wrong = [f"remove {other}", "tree c1:m1", "tree c1.1:m0", f"tree {self.first[0]}999999", f"tree {self.first} "]
        return self.dice.choice(wrong + ["nonsense", "new element 1a", "new text x"])

    def words_of_new(self):
        kind = self.dice.choices(("element", "text", "comment", "fragment"), (12, 5, 2, 2))[0]
        if kind == "element":
            return "new element " + self.dice.choice(PAGE_NAMES if self.is_page else COMPONENT_NAMES)
        return "new fragment" if kind == "fragment" else f"new {kind} {self.dice.choice(STRINGS)}"

    def words_of_append(self):
        node = self.movable()
        return f"append {self.parent_for(node)} {node}"

    def words_beside_a_child(self, command):
        """A command that takes a parent, a node and one of the parent's children; else an `append`."""
        node = self.movable()
        parent = self.parent_for(node)
        names = [child for child in self.children(parent) if child not in self.fixed]
        return f"{command} {parent} {node} {self.dice.choice(names)}" if names else f"append {parent} {node}"

    def words_of_insert(self):
        return self.words_beside_a_child("insert")

    def words_of_replace(self):
        return self.words_beside_a_child("replace")

    def words_of_adopt(self):
        return f"adopt {self.one('document')} {self.movable()}"

    def words_of_set(self):
        return f"set {self.one('element')} {self.dice.choice(ATTRIBUTES)} {self.dice.choice(STRINGS)}"

    def words_of_unset(self):
        return f"unset {self.one('element')} {self.dice.choice(ATTRIBUTES)}"

    def words_of_attr(self):
        return f"attr {self.one('element')} {self.dice.choice(ATTRIBUTES)}"

    def words_of_data(self):
        return f"data {self.one(*TEXTS)} {self.dice.choice(STRINGS)}"

    def words_of_replace_data(self):
        return f"replace-data {self.one(*TEXTS)} {self.dice.randint(0, 1)} {self.dice.randint(0, 3)} {self.dice.choice(STRINGS)}"

    def words_of_split(self):
        return f"split {self.one('text')} {self.dice.randint(0, 1)}"

    def words_of_text(self):
        nodes = [name for name in self.kinds if name not in self.fixed] or [self.one("text")]
        return f"text {self.dice.choice(nodes)} {self.dice.choice(STRINGS)}"

    def words_of_contains(self):
        return f"contains {self.one()} {self.one()}"

    def words_of_assigned(self):
        slots = [name for name, element in self.elements.items() if element == "slot"]
        return f"assigned {self.dice.choice(slots)}" if slots else "new element slot"

    def words_of_attach(self):
        free = [name for name, element in self.elements.items() if element in HOSTS]
        return f"attach {self.dice.choice(free)}" if free else "new element div"

    def words_at_an_end(self, command):
        """A command that sets an end of a range."""
        name, node = self.of_table("range"), self.one()
        return f"{command} {name} {node} {self.offset(node)}" if name else "range-new"

    def words_of_range_start(self):
        return self.words_at_an_end("range-start")

    def words_of_range_end(self):
        return self.words_at_an_end("range-end")

    def words_of_range_collapse(self):
        name = self.of_table("range")
        return f"range-collapse {name} {self.dice.choice(('start', 'end'))}" if name else "range-new"

    def words_of_insert_node(self):
        name = self.of_table("range")
        return f"insert-node {name} {self.movable()}" if name else "range-new"

    def words_of_walk(self):
        name = self.of_table("walk")
        return f"walk {name} {self.dice.choice(MOVES)}" if name else self.words_to_make("walk")

    def words_of_walk_set(self):
        name = self.of_table("walk")
        return f"walk-set {name} {self.one()}" if name else self.words_to_make("walk")

    def words_of_query(self):
        return f'query {self.one("document", *CONTAINERS)} "{self.selector()}"'

    def words_of_matches(self):
        return f'matches {self.one("element")} "{self.selector()}"'

    def selector(self):
        """A selector, seldom one that is wrong."""
        return self.dice.choice(SELECTORS if self.dice.random() < 0.9 else BAD_SELECTORS)

    def words_of_listen(self):
        actions = ("log", "log", "log", "stop", "stop-now", "cancel") if self.is_page else ("log",)
        label = "l" + str(self.dice.randint(0, 20))
        more = self.some(("capture", "once", "passive"), 0.25)
        return f"listen {self.one()} {self.dice.choice(TYPES)} {label} {self.dice.choice(actions)}{more}"

    def words_of_unlisten(self):
        return "unlisten " + self.dice.choice(self.listeners) if self.listeners else self.words_of_listen()

    def words_of_dispatch(self):
        node, words = self.one(), self.some(("bubbles", "cancelable"), 0.5)
        if self.is_page or self.sends_out:
            words += self.some(("composed",), 0.5) + self.some((f"related {self.one()}",), 0.3)
        elif self.dice.random() < 0.5:
            apart = [name for name in self.elements if name not in self.placed]
            if apart and self.dice.random() < 0.5:
                node, words = self.dice.choice(apart), words + " composed"
            else:
                words += f" composed related {node if self.dice.random() < 0.5 else self.parents.get(node) or node}"
        return f"dispatch {node} {self.dice.choice(TYPES)}{words}"

    def words_of_observe(self):
        name = self.of_table("observer")
        return f"observe {name} {self.one()}{self.some(OBSERVED, 0.6)}" if name else "observer"

    def words_of_micro(self):
        return f"micro k{self.dice.randint(0, 99)}"

    # What is learnt.

    def place(self, parent, node):
        """A node was placed; a fragment gave its children."""
        moved = self.children(node) if self.kinds.get(node) == "fragment" else [node]
        for name in moved:
            self.parents[name] = parent
            self.placed.add(name)

    def made(self, name, kind, element=None):
        """A node was made."""
        self.kinds[name] = kind
        self.parents[name] = None
        if element:
            self.elements[name] = element

    def learn(self, line, value):
        """A line of this owner was accepted, and answered with this value."""
        _, command, *words = line.split(" ")
        if command == "new":
            self.made(value, words[0], words[1] if words[0] == "element" else None)
        elif command in ("document", "split", "extract"):
            self.made(value, {"document": "document", "split": "text", "extract": "fragment"}[command])
        elif command in ("append", "insert", "replace"):
            self.place(words[0], words[1])
        elif command == "insert-node":
            self.place(None, words[1])
        elif command == "attach":
            self.elements.pop(words[0])
        elif command == "listen" and words[1] in TYPES:
            self.listeners.append(" ".join(words[:3] + (["capture"] if "capture" in words[4:] else [])))
        elif command in ("range-new", "iter-new", "walk-new", "observer"):
            self.tables[command.removesuffix("-new")].append(value)
        self.learn_leaving(command, words)

    def learn_leaving(self, command, words):
        """What an accepted command takes away."""
        if command in ("remove", "adopt", "replace"):
            self.parents[words[-1]] = None
        elif command == "text" and self.kinds.get(words[0]) in CONTAINERS:
            for child in self.children(words[0]):
                self.parents[child] = None
        elif command == "range-drop":
            self.tables["range"].remove(words[0])
