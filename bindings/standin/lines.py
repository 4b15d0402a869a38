"""Lines of the protocol, run by typed calls: a line is read, its call is made, and its answer is written. For the tests of the bindings alone."""
import ctypes
import os
import re
import sys
from ctypes import byref, c_bool, c_uint32

HERE = os.path.dirname(os.path.abspath(__file__))
sys.path[:0] = [HERE, os.path.join(HERE, "../../examples/malformed")]
import grammar  # noqa: E402
from abi import CALL, NONE, OK, REFUSALS, Answer, Document, Lent, Node, Point, bytes_of, units_of  # noqa: E402

KINDS = {1: "element", 3: "text", 8: "comment", 9: "document", 11: "fragment", 12: "shadow"}
SHOWN = {"element": 1, "text": 1 << 2, "comment": 1 << 7, "document": 1 << 8, "fragment": 1 << 10}
ACTIONS = "log stop stop-now cancel call".split()
LISTENER_WORDS = {"capture": 1, "once": 2, "passive": 4}
EVENT_WORDS = {"bubbles": 8, "cancelable": 16, "composed": 32, "prevented": 64}
OBSERVE_WORDS = dict(zip("childList attributes characterData subtree attributeOldValue characterDataOldValue".split(), (1, 2, 4, 8, 16, 32)))
MOVES = "parent first last next previous next-sibling previous-sibling".split()
LIVE = re.compile(r"(return|((prevent|stop|stop-now|prevented)( \d+)?)|observer call|micro \S+ call|listen \S+ \S+ \S+ call( capture)?( once)?( passive)?)")
STRING = re.compile(r'"(?:[^"\\]|\\["\\]|\\u[0-9A-Fa-f]{4})*"')


class Refused(Exception):
    """A call was refused; its status is the argument."""


def units_in(text):
    """The units of a string of a line."""
    return [
        int(item[2:], 16) if item[1:2] == "u" else ord(item[-1]) for item in re.findall(r'\\u[0-9A-Fa-f]{4}|\\["\\]|[^\\]', text[1:-1], re.DOTALL)
    ]


def quoted(units):
    """Units as a string of a line."""
    items = (f"\\{chr(unit)}" if chr(unit) in '"\\' else chr(unit) if 32 <= unit <= 126 else f"\\u{unit:04x}" for unit in units)
    return f'"{"".join(items)}"'


def words_in(line):
    """The words and strings of a line."""
    words = []
    while line:
        match = STRING.match(line) or re.match(r"\S+", line)
        words.append(match[0])
        line = line[match.end() + 1 :]
    return words


class Script:
    """A run of a script."""

    def __init__(self, library, is_live):
        self.library, self.is_live = library, is_live
        self.document, self.owners, self.turn, self.said = Document(), ["p"], None, []
        self.under_way, self.place, self.told_at_end = [], 0, []
        self.call("open", own=False)

    # ---- calls

    def status(self, name, *words, own=True):
        """Makes a call, and gives its status."""
        who = [c_uint32(self.place)] if own else []
        return getattr(self.library, f"dom_{name}")(byref(self.document), *who, *words)

    def call(self, name, *words, own=True):
        """Makes a call that has to be done."""
        status = self.status(name, *words, own=own)
        if status:
            raise Refused(status)

    def answer(self):
        """The arrays of the last call."""
        answer = Answer()
        self.library.dom_answer(byref(self.document), byref(answer))
        return answer

    def shown(self, node):
        """A node as the present owner's lines have it."""
        return self.shown_to(node, self.place)

    def shown_to(self, node, place):
        """A node as an owner's lines have it."""
        if node.owner == NONE.owner:
            return "null"
        if node.owner == 0:
            return f"n{node.number}"
        return f"m{node.number}" if node.owner == place else f"{self.owners[node.owner]}:m{node.number}"

    def listed(self, nodes, place=None):
        """A list of nodes."""
        return f"[{','.join(self.shown_to(node, self.place if place is None else place) for node in nodes)}]"

    def node(self, word):
        """The node that a word names; a foreign one is another owner's."""
        own = "m" if self.place else "n"
        return Node(self.place, int(word[1:])) if word[0] == own else Node(NONE.owner - 1, 0)

    def made(self, name, *words, kind=Node):
        """Makes a call that writes something, and gives that."""
        made = kind()
        self.call(name, *words, byref(made))
        return made

    def truth(self, name, *words):
        """Makes a call that writes whether something is so."""
        return "true" if self.made(name, *words, kind=c_bool).value else "false"

    def lent_nodes(self, name, *words):
        """Makes a call that lends nodes."""
        lent = Lent(Node)
        self.call(name, *words, *lent.words())
        return self.listed(lent.list())

    # ---- what is told

    def tell(self):
        """Says the deliveries of the last call, and whose callback is due."""
        answer = self.answer()
        for delivery in answer.deliveries[: answer.delivery_count] if answer.delivery_count else []:
            self.said.append(f"{self.owners[delivery.owner]} {self.delivery(answer, delivery)}")
        return answer

    def delivery(self, answer, told):
        """A delivery as a line without its owner."""
        show = lambda node: self.shown_to(node, told.owner)  # noqa: E731
        if told.kind == 5:
            return f"micro {answer.text(told.label)}"
        if told.kind == 1:
            path = self.listed(told.path.of(answer.nodes), told.owner)
            words = f"phase={told.number} target={show(told.target)} current={show(told.current)} related={show(told.related)} path={path}"
            return f"event {answer.text(told.label)} {answer.text(told.name)} {words}"
        if told.kind == 2:
            added, removed = (self.listed(span.of(answer.nodes), told.owner) for span in (told.added, told.removed))
            return f"record o{told.number} childList {show(told.target)} added={added} removed={removed} prev={show(told.previous)} next={show(told.next)}"
        old = quoted(told.old_value.of(answer.units)) if told.has_old_value else "null"
        if told.kind == 3:
            return f"record o{told.number} attributes {show(told.target)} name={answer.text(told.name)} old={old}"
        return f"record o{told.number} characterData {show(told.target)} old={old}"

    def goes_on(self, status, reply):
        """Says what a dispatch, a checkpoint or a return told, and gives whether what was under way is over; else it waits with its reply."""
        if status not in (OK, CALL):
            raise Refused(status)
        answer = self.tell()
        if status == OK:
            return True
        called = answer.called.of(answer.deliveries)
        words = "".join(f" {word}" for word, bit in EVENT_WORDS.items() if called[0].flags & bit)
        observer = f" o{called[0].number}" if called[0].kind in (2, 3, 4) else ""
        self.said.append(f"{self.owners[called[0].owner]} call{observer}{words}")
        self.under_way.append((called[0].owner, reply))
        return False

    # ---- commands

    def dispatch(self, words):
        """An event is fired."""
        related = self.node(words[words.index("related") + 1]) if "related" in words else NONE
        truth, asker = c_bool(), (self.place, "truth")
        flags = sum(EVENT_WORDS.get(word, 0) for word in words[2:])
        status = self.status("dispatch", self.node(words[0]), *bytes_of(words[1]), c_uint32(flags), related, byref(truth))
        return ["true" if truth.value else "false"] if self.goes_on(status, asker) else None

    def give_back(self):
        """An owner's innermost call is over."""
        if self.under_way and self.under_way[-1][0] == self.place:
            self.say("ok")
            self.returned(self.under_way.pop()[1])
            return None
        raise Refused(self.status("give_back", byref(c_bool())))

    def returned(self, asker):
        """What was under way goes on, and where it is over, who asked for it is answered."""
        truth = c_bool()
        if self.goes_on(self.status("give_back", byref(truth)), asker):
            who, what = asker
            self.said.append(f"{self.owners[who]} ok" + (f" {'true' if truth.value else 'false'}" if what == "truth" else ""))

    def checkpoint(self):
        """The tasks run."""
        return [] if self.goes_on(self.status("checkpoint", own=False), (self.place, "done")) else None

    def filter(self, words):
        """What a cursor shows."""
        bits = 2**32 - 1 if words[0] == "all" else sum(SHOWN[word] for word in words[0].split(","))
        verdict, name = words[1].split("=") if len(words) > 1 else ("accept", "")
        return c_uint32(bits), c_uint32({"accept": 1, "reject": 2, "skip": 3}[verdict]), *bytes_of(name)

    def tree(self, node):
        """The text of a tree."""
        self.call("rows", node)
        answer, text, above = self.answer(), "", []
        for at, row in enumerate(answer.rows[: answer.row_count]):
            while above and above[-1] != row.parent:
                above.pop()
                text += ")"
            name = answer.text(row.name)
            text += f"{' ' * (at > 0)}({self.shown(row.node)} {KINDS[row.kind]}{' ' * bool(name)}{name}"
            for attribute in row.attributes.of(answer.attributes):
                text += f" {answer.text(attribute.name)}={quoted(attribute.value.of(answer.units))}"
            if row.kind in (3, 8):
                text += f" {quoted(row.data.of(answer.units))}"
            above.append(at)
        return text + ")" * len(above)

    def perform(self, words):
        """Runs a command, and gives the words of its reply, or None if it is not over."""
        name, *rest = words
        number = lambda word: c_uint32(int(word.lstrip("riwo")))  # noqa: E731
        if name == "new" or name == "document":
            kind = "document" if name == "document" else rest[0]
            given = bytes_of(rest[1]) if kind == "element" else units_of(units_in(rest[1])) if kind in ("text", "comment") else ()
            return [self.shown(self.made(f"create_{kind}", *given))]
        if name == "attach":
            place = self.made("attach", self.node(rest[0]), kind=c_uint32).value
            mine = self.owners[self.place]
            count = sum(word.rpartition(".")[0] == mine if self.place else "." not in word for word in self.owners[1:])
            self.owners.append(f"{mine}.{count + 1}" if self.place else f"c{count + 1}")
            assert place == len(self.owners) - 1
            return [self.owners[-1]]
        if name in ("append", "insert", "replace", "remove", "adopt", "normalize"):
            return self.call(name, *map(self.node, rest)) or []
        if name in ("set", "unset"):
            given = units_of(units_in(rest[2])) if name == "set" else ()
            return self.call({"set": "set_attribute", "unset": "remove_attribute"}[name], self.node(rest[0]), *bytes_of(rest[1]), *given) or []
        if name in ("data", "text"):
            return self.call(f"set_{name}", self.node(rest[0]), *units_of(units_in(rest[1]))) or []
        if name == "replace-data":
            return self.call("replace_data", self.node(rest[0]), number(rest[1]), number(rest[2]), *units_of(units_in(rest[3]))) or []
        if name == "split":
            return [self.shown(self.made("split_text", self.node(rest[0]), number(rest[1])))]
        if name == "tree":
            return [self.tree(self.node(rest[0]))]
        if name == "attr":
            has, lent = c_bool(), Lent(ctypes.c_uint16)
            self.call("get_attribute", self.node(rest[0]), *bytes_of(rest[1]), byref(has), *lent.words())
            return [quoted(lent.list()) if has.value else "null"]
        if name in ("parent", "docof", "shadow-root", "slot-of"):
            known = {"docof": "owner_document", "shadow-root": "shadow_root", "slot-of": "assigned_slot"}
            return [self.shown(self.made(known.get(name, name), self.node(rest[0])))]
        if name in ("children", "assigned"):
            return [self.lent_nodes(name, self.node(rest[0]))]
        if name in ("contains", "connected"):
            return [self.truth({"connected": "is_connected"}.get(name, name), *map(self.node, rest))]
        if name == "query":
            return [self.lent_nodes("query", self.node(rest[0]), *units_of(units_in(rest[1])))]
        if name == "matches":
            return [self.truth("matches", self.node(rest[0]), *units_of(units_in(rest[1])))]
        return self.perform_on_things(name, rest, number)

    def perform_on_things(self, name, rest, number):
        """Runs a command on ranges, cursors, events, observers or tasks."""
        if name == "range-new":
            return [f"r{self.made('range_create', kind=c_uint32).value}"]
        if name in ("range-start", "range-end"):
            return self.call(f"range_set_{name[6:]}", number(rest[0]), self.node(rest[1]), number(rest[2])) or []
        if name == "range-collapse":
            return self.call("range_collapse", number(rest[0]), c_bool(rest[1] == "start")) or []
        if name in ("range-drop", "delete"):
            return self.call({"delete": "range_delete"}.get(name, "range_drop"), number(rest[0])) or []
        if name == "range-get":
            points = Point(), Point()
            self.call("range_points", number(rest[0]), *map(byref, points))
            return [word for point in points for word in (self.shown(point.node), str(point.offset))]
        if name == "range-text":
            lent = Lent(ctypes.c_uint16)
            self.call("range_text", number(rest[0]), *lent.words())
            return [quoted(lent.list())]
        if name == "extract":
            return [self.shown(self.made("range_extract", number(rest[0])))]
        if name == "insert-node":
            return self.call("range_insert", number(rest[0]), self.node(rest[1])) or []
        if name in ("iter-new", "walk-new"):
            kind = {"iter-new": "iterator", "walk-new": "walker"}[name]
            return [kind[0] + str(self.made(f"{kind}_create", self.node(rest[0]), *self.filter(rest[1:]), kind=c_uint32).value)]
        if name in ("iter-next", "iter-prev"):
            return [self.shown(self.made({"iter-next": "iterator_next"}.get(name, "iterator_previous"), number(rest[0])))]
        if name == "iter-at":
            node, before = Node(), c_bool()
            self.call("iterator_reference", number(rest[0]), byref(node), byref(before))
            return [self.shown(node), "before" if before.value else "after"]
        if name == "walk":
            return [self.shown(self.made("walker_move", number(rest[0]), c_uint32(MOVES.index(rest[1]))))]
        if name == "walk-at":
            return [self.shown(self.made("walker_current", number(rest[0])))]
        if name == "walk-set":
            return self.call("walker_set", number(rest[0]), self.node(rest[1])) or []
        if name == "listen":
            flags = sum(LISTENER_WORDS[word] for word in rest[4:])
            return self.call("listen", self.node(rest[0]), *bytes_of(rest[1]), *bytes_of(rest[2]), c_uint32(ACTIONS.index(rest[3])), c_uint32(flags)) or []
        if name == "unlisten":
            flags = sum(LISTENER_WORDS[word] for word in rest[3:])
            return self.call("unlisten", self.node(rest[0]), *bytes_of(rest[1]), *bytes_of(rest[2]), c_uint32(flags)) or []
        if name == "dispatch":
            return self.dispatch(rest)
        if name == "observer":
            return [f"o{self.made('observer_create', c_bool('call' in rest), kind=c_uint32).value}"]
        if name == "observe":
            names = rest[-1][7:] if rest[-1].startswith("filter=") else ""
            flags = sum(OBSERVE_WORDS.get(word, 0) for word in rest[2:]) + 64 * bool(names)
            return self.call("observe", number(rest[0]), self.node(rest[1]), c_uint32(flags), *bytes_of(names)) or []
        if name == "take":
            count = self.made("take_records", number(rest[0]), kind=c_uint32).value
            self.tell()
            return [str(count)]
        if name == "disconnect":
            return self.call("disconnect", number(rest[0])) or []
        if name == "micro":
            return self.call("queue_microtask", *bytes_of(rest[0]), c_bool("call" in rest)) or []
        if name == "return":
            return self.give_back()
        if name == "prevented":
            return [self.truth("prevented", c_uint32(int(rest[0]) if rest else 0))]
        if name in ("prevent", "stop", "stop-now"):
            return self.call(name.replace("-", "_"), c_uint32(int(rest[0]) if rest else 0)) or []
        assert name == ".", name
        return self.checkpoint()

    # ---- lines

    def say(self, *words):
        """Says a reply of the present owner."""
        self.said.append(" ".join([self.owners[self.place], *words]))

    def end_turn(self):
        """Runs the tasks of a turn that a line of another owner ends."""
        self.status("finish", own=False)
        self.tell()
        self.turn = None

    def line(self, line):
        """Runs a line, and gives what it said."""
        self.said = []
        kind = grammar.answer_class(line)
        word, _, rest = line[:70_000].decode("latin-1").partition(" ")
        if kind == "owner":
            return ["! owner"]
        if self.turn not in (None, "p", word):
            self.end_turn()
        if kind == "syntax" and not (self.is_live and LIVE.fullmatch(rest)):
            return self.said + [f"{word} ! syntax"]
        if self.turn == "p" and word != "p":
            return self.said + [f"{word} ! busy"]
        if word not in self.owners:
            return self.said + [f"{word} ! {'foreign' if self.names_foreign(rest) else 'unknown'}"]
        self.place = self.owners.index(word)
        self.run(rest)
        return self.said

    def names_foreign(self, rest):
        """Whether a line of a component that is not there names another owner's node."""
        outside = re.sub(STRING, "", rest)
        return bool(re.search(r" (n[0-9]+|c[0-9.]+:m[0-9]+)( |$)", outside))

    def run(self, rest):
        """Runs a command of the present owner."""
        try:
            said = self.perform(words_in(rest))
        except Refused as refusal:
            self.say("!", REFUSALS[refusal.args[0]])
            return
        if said is not None:
            self.say("ok", *said)
        if not self.is_live:
            self.turn = None if rest == "." else self.turn or self.owners[self.place]

    def end(self):
        """Ends the input, and gives what that said."""
        self.said = []
        while self.under_way:
            self.place, asker = self.under_way.pop()
            self.returned(asker)
        if self.turn or self.is_live:
            self.end_turn()
        self.status("close", own=False)
        return self.said
