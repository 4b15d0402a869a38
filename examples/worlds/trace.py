"""Reads the trace of a script for a group of owners, written apart from the engine: the members' lines, and what all others send out.

An outward event is an accepted `dispatch` of a component outside with `composed` and without a related node, whose target is below the
component's shadow root, whose host, where it is of a component outside, is below that one's, and so on up to a member's node. The trace has
this boundary host, the type, and whether it bubbles and is cancelable (docs/ISOLATION.md). The group is the page alone, if no other is
given. Which lines were accepted is read from the replies; where a component's nodes stand is followed here, by the commands that move
them. After a command that changes what is in a range this reader knows only what has no parent and what is placed anew, and it stops where
it would have to know more.
"""
import os
import re
import sys

sys.path.insert(0, os.path.join(os.path.dirname(os.path.abspath(__file__)), "..", "malformed"))
import grammar  # noqa: E402

OWNER = re.compile(rf"(p|{grammar.COMPONENT_WORD}) ")
REPLY = re.compile(rf"! owner|(?:p|{grammar.COMPONENT_WORD}) (?:ok|!)(?: .*)?")


class Unread(Exception):
    """A script of which this reader can't tell the trace, or of which isolation says nothing."""


def answered(script, output):
    """The lines of a script, each with its reply."""
    lines = script.split("\n")
    if lines[-1] == "":
        lines.pop()
    replies = [line for line in output.split("\n") if REPLY.fullmatch(line)]
    if len(replies) != len(lines):
        raise Unread(f"{len(lines)} lines have {len(replies)} replies")
    return list(zip(lines, replies))


class Trees:
    """Where a component's nodes stand: of each node that is known, its parent, or None where it has none."""

    def __init__(self):
        self.parents = {"m0": None}
        self.kinds = {"m0": "shadow"}

    def made(self, name, kind):
        """A new node, without a parent."""
        self.parents[name] = None
        self.kinds[name] = kind

    def place(self, parent, node):
        """A node goes below a parent; a fragment gives its children."""
        if self.kinds.get(node) == "fragment":
            self.give(node, parent)
        else:
            self.parents[node] = parent

    def give(self, node, parent):
        """The children of a node go below another one, or lose their parent."""
        for child in [child for child, above in self.parents.items() if above == node]:
            self.parents[child] = parent

    def forget(self):
        """What has a parent may have another one now; what has none still has none."""
        self.parents = {node: None for node, above in self.parents.items() if above is None}

    def follow(self, command, words, value):
        """An accepted command, its other words, and the value of its reply."""
        if command == "new":
            self.made(value, words[0])
        elif command == "document":
            self.made(value, "document")
        elif command in ("append", "insert"):
            self.place(words[0], words[1])
        elif command == "replace":
            self.parents[words[2]] = None
            self.place(words[0], words[1])
        elif command == "remove":
            self.parents[words[0]] = None
        elif command == "adopt":
            self.parents[words[1]] = None
        elif command == "text" and self.kinds.get(words[0]) not in ("document", "text", "comment"):
            self.give(words[0], None)
        elif command == "normalize":
            for text in [node for node, kind in self.kinds.items() if kind == "text"]:
                self.parents.pop(text, None)
        elif command in ("delete", "extract", "insert-node"):
            self.forget()
            if command == "extract":
                self.made(value, "fragment")
            elif command == "insert-node":
                self.parents.pop(words[1], None)

    def is_inside(self, node):
        """Whether a node is below the shadow root, or is it."""
        while node != "m0":
            if node not in self.parents:
                raise Unread(f"where {node} stands is not known")
            node = self.parents[node]
            if node is None:
                return False
        return True


def is_page(owner):
    """Whether an owner is the page."""
    return owner == "p"


def maker_of(component):
    """Whoever attached a component: the page, or the component whose word lacks the last number."""
    return component.rpartition(".")[0] or "p"


def accepted_of(line, reply):
    """Of an accepted line the owner, the command, its other words, and the value of the reply; nothing of another one."""
    begins = OWNER.match(line)
    if not begins or not reply.startswith(begins[1] + " ok") or grammar.answer_class(line.encode("latin-1")) != "read":
        return None
    command, *words = line[begins.end() :].split(" ")
    return begins[1], command, words, reply[len(begins[1]) + 4 :]


def listens_that_stop(script, output):
    """The accepted lines of components by which a listener may stop or cancel an event."""
    said = [(line, *found) for line, reply in answered(script, output) if (found := accepted_of(line, reply))]
    return [line for line, owner, command, words, _ in said if not is_page(owner) and command == "listen" and words[3] != "log"]


def ends_of_turns(script, output, is_kept):
    """The lines of owners outside that end a member's turn: any other owner's line ends a component's turn, refused or not."""
    turn, ends = None, []
    for line, reply in answered(script, output):
        begins = OWNER.match(line)
        if not begins or reply == "! owner":
            continue
        if turn and not is_page(turn) and turn != begins[1]:
            ends += [line] if is_kept(turn) and not is_kept(begins[1]) else []
            turn = None
        if reply.startswith(begins[1] + " ok"):
            turn = None if line[begins.end() :] == "." else turn or begins[1]
    return ends


def trace_of(script, output, is_kept=is_page, may_stop=False):
    """The trace of a script that the program answered with this output: the lines of the owners that are kept, of whom the page is one, and
    tuples for the outward events of all others. A component's listener that may stop an event is read on where `may_stop` says so."""
    stops = [] if may_stop else listens_that_stop(script, output)
    if stops:
        raise Unread(f"a listener may stop an event: {stops[0]}")
    hosts, trees, trace = {}, {}, []
    for line, reply in answered(script, output):
        begins = OWNER.match(line)
        if begins and is_kept(begins[1]):
            trace.append(line)
        owner, command, words, value = accepted_of(line, reply) or (None, None, [], None)
        if command == "attach":
            hosts[value], trees[value] = (owner, words[0]), Trees()
        elif owner and not is_page(owner):
            trees[owner].follow(command, words, value)
            if not is_kept(owner) and command == "dispatch" and "composed" in words[2:] and words[-2] != "related":
                host = boundary_host(hosts, trees, is_kept, owner, words[0])
                trace.extend([(host, words[1], "bubbles" in words[2:], "cancelable" in words[2:])] if host else [])
    return trace


def boundary_host(hosts, trees, is_kept, owner, node):
    """The first member's node above a node of an owner outside, from host to host, or nothing where one on the way stands in no tree."""
    while not is_kept(owner):
        if not trees[owner].is_inside(node):
            return None
        owner, node = hosts[owner]
    return node if is_page(owner) else f"{owner}:{node}"
