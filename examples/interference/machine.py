"""A small document machine, written apart from the engine, that tells the full trace of a script for a group of owners, and runs one.

It knows `new element`, `append`, `remove`, `attach`, `listen`, `unlisten`, `dispatch`, `micro` and `.`. The full trace (docs/ISOLATION.md)
has the lines of the group, each with a record for each event that it fires at a node of the group; the others' outward events, each with
how far others let it come; and the endings of the group's turns by others' lines, with their records. A record says before which of the
visits at the group's nodes another's listener stopped the event, if one did, and whether one cancelled it.
"""
from __future__ import annotations

from collections.abc import Callable
from typing import NamedTuple

from trees import PAGE, Node, Trees, Visit


class Record(NamedTuple):
    """What others did to an event."""

    reached: int | None
    cancelled: bool


class Event(NamedTuple):
    """An event that is dispatched."""

    type: str
    bubbles: bool
    cancelable: bool
    composed: bool


class Listener(NamedTuple):
    """A listener: its key, and what it does."""

    node: Node
    type: str
    label: str
    capture: bool
    action: str
    once: bool
    passive: bool


# Whether an owner is of a group, and the flags of an event: whether it is stopped, and whether it is cancelled.
Group = Callable[[str], bool]
Flags = tuple[bool, bool]
UNTOUCHED = Record(None, False)
SLOTCHANGE = Event("slotchange", True, False, False)


def name_for(viewer: str, node: Node) -> str:
    """A node's name as an owner has it."""
    owner, number = node
    return f"n{number}" if owner == PAGE else f"m{number}" if owner == viewer else f"{owner}:m{number}"


class Machine:
    """The parts of all owners. The silent run visits the group's nodes alone, as far as `told` says, and runs its tasks alone."""

    def __init__(self, is_kept: Group, is_silent: bool = False):
        self.is_kept, self.is_silent = is_kept, is_silent
        self.trees = Trees(self.signal)
        self.counts, self.attached = {PAGE: 1}, {PAGE: 0}
        self.listeners = {PAGE: []}
        self.signalled, self.tasks, self.turn = [], [], None
        self.records, self.told, self.output = [], [], []

    def say(self, owner: str, text: str) -> None:
        """A line of output."""
        self.output.append(f"{owner} {text}")

    # Turns.

    def signal(self, slot: Node) -> None:
        """Notes a slot whose assigned nodes change, and its owner's notification."""
        if slot not in self.signalled:
            self.signalled.append(slot)
        if ("notify", slot[0]) not in self.tasks:
            self.tasks.append(("notify", slot[0]))

    def end_turn(self) -> None:
        """Runs the microtasks; in the silent run those of the group alone."""
        tasks, self.tasks, self.turn = self.tasks, [], None
        for kind, owner, *label in tasks:
            if self.is_silent and not self.is_kept(owner):
                continue
            if kind == "micro":
                self.say(owner, f"micro {label[0]}")
                continue
            slots = [slot for slot in self.signalled if slot[0] == owner]
            self.signalled = [slot for slot in self.signalled if slot[0] != owner]
            for slot in slots:
                self.fire(slot, None, SLOTCHANGE, self.is_kept(owner))

    # Events.

    def fire(self, target: Node, related: Node | None, event: Event, is_told: bool = True) -> bool:
        """Dispatches an event, and answers whether it was not cancelled. What others did to it is recorded, or taken from what is told."""
        visits = self.trees.visits(target, related, event.bubbles, event.composed)
        record = UNTOUCHED
        if self.is_silent:
            record = self.told.pop(0) if self.told else UNTOUCHED
            visits = [visit for visit in visits if self.is_kept(visit[0][0])][: record.reached]
        flags, reached, cancelled, own = (False, False), None, False, 0
        for visit in visits:
            was, flags = flags, self.visit(event, visit, flags)
            if self.is_kept(visit[0][0]):
                own += 1
                continue
            if flags[0] and not was[0]:
                reached = own
            cancelled = cancelled or flags[1] and not was[1]
        if is_told and not self.is_silent:
            # The first and the last of the visits are the group's, if any is: so others stop the event between two visits of the group.
            assert not own or reached is None or 0 < reached < own
            self.records.append(Record(reached, cancelled))
        return not (record.cancelled or flags[1])

    def visit(self, event: Event, visit: Visit, flags: Flags) -> Flags:
        """Calls the listeners of a node, unless the event is stopped, and gives whether it is stopped now, and whether it is cancelled."""
        node, phase, target, related, capturing, path = visit
        stopped, cancelled = flags
        listeners = self.listeners[node[0]]
        hearing = [] if stopped else [one for one in listeners if (one.node, one.type, one.capture) == (node, event.type, capturing)]
        for one in hearing:
            if one.once:
                listeners.remove(one)
            names = [name_for(node[0], other) for other in path]
            other = name_for(node[0], related) if related else "null"
            places = f"target={name_for(node[0], target)} current={name_for(node[0], node)} related={other} path=[{','.join(names)}]"
            self.say(node[0], f"event {one.label} {event.type} phase={phase} {places}")
            stopped = stopped or one.action in ("stop", "stop-now")
            cancelled = cancelled or one.action == "cancel" and event.cancelable and not one.passive
            if one.action == "stop-now":
                break
        return stopped, cancelled

    # Lines.

    def ends_other_turn(self, owner: str) -> bool:
        """Whether a line of an owner ends another component's turn."""
        return self.turn not in (None, PAGE, owner)

    def line(self, line: str) -> None:
        """Runs a line."""
        owner, command, *words = line.split(" ")
        if self.ends_other_turn(owner):
            self.end_turn()
        if owner != PAGE and self.turn == PAGE:
            self.say(owner, "! busy")
        elif owner not in self.counts:
            self.say(owner, "! unknown")
        else:
            if command != ".":
                self.turn = self.turn or owner
            value = {".": self.end_own}.get(command, getattr(self, f"do_{command}", None))(owner, words)
            self.say(owner, "ok" if value is None else f"ok {value}")

    def end_own(self, owner: str, words: list[str]) -> None:
        """`.`"""
        self.end_turn()

    def node(self, owner: str, word: str) -> Node:
        """An owner's node by its name."""
        return owner, int(word[1:])

    def do_new(self, owner: str, words: list[str]) -> str:
        """`new element`"""
        node = (owner, self.counts[owner])
        self.counts[owner] += 1
        self.trees.make(node, words[1])
        return name_for(owner, node)

    def do_append(self, owner: str, words: list[str]) -> None:
        """`append`"""
        self.trees.append(self.node(owner, words[0]), self.node(owner, words[1]))

    def do_remove(self, owner: str, words: list[str]) -> None:
        """`remove`"""
        self.trees.remove(self.node(owner, words[0]))

    def do_attach(self, owner: str, words: list[str]) -> str:
        """`attach`"""
        self.attached[owner] += 1
        component = f"c{self.attached[owner]}" if owner == PAGE else f"{owner}.{self.attached[owner]}"
        self.counts[component], self.attached[component], self.listeners[component] = 1, 0, []
        self.trees.attach(self.node(owner, words[0]), component)
        return component

    def do_listen(self, owner: str, words: list[str]) -> None:
        """`listen`"""
        node, kind, label, action, *options = words
        one = Listener(self.node(owner, node), kind, label, "capture" in options, action, "once" in options, "passive" in options)
        if all(other[:4] != one[:4] for other in self.listeners[owner]):
            self.listeners[owner].append(one)

    def do_unlisten(self, owner: str, words: list[str]) -> None:
        """`unlisten`"""
        key = (self.node(owner, words[0]), words[1], words[2], "capture" in words[3:])
        self.listeners[owner] = [one for one in self.listeners[owner] if one[:4] != key]

    def do_dispatch(self, owner: str, words: list[str]) -> str:
        """`dispatch`"""
        target, event, related = read_dispatch(owner, words)
        return "true" if self.fire(target, related, event) else "false"

    def do_micro(self, owner: str, words: list[str]) -> None:
        """`micro`"""
        self.tasks.append(("micro", owner, words[0]))


def read_dispatch(owner: str, words: list[str]) -> tuple[Node, Event, Node | None]:
    """The target, the event and the related node of the words of `dispatch`."""
    related = (owner, int(words[-1][1:])) if len(words) > 3 and words[-2] == "related" else None
    options = words[2:-2] if related else words[2:]
    return (owner, int(words[0][1:])), Event(words[1], *(word in options for word in ("bubbles", "cancelable", "composed"))), related


def boundary_host(machine: Machine, node: Node) -> Node | None:
    """The first node of the group, from a node outwards from host to host, or nothing where one of these stands in no tree."""
    while not machine.is_kept(node[0]):
        root = machine.trees.root(node)
        if not machine.trees.is_shadow(root):
            return None
        node = machine.trees.hosts[root[0]]
    return node


def outward_of(machine: Machine, line: str, is_accepted: bool) -> tuple[Node, Event] | None:
    """The event that a line of another owner sends out to the group, if it does: its host, and the event."""
    owner, command, *words = line.split(" ")
    if command != "dispatch" or not is_accepted:
        return None
    target, event, related = read_dispatch(owner, words)
    host = boundary_host(machine, target) if event.composed and not related else None
    return (host, event) if host else None


def full_trace(script: list[str], is_kept: Group) -> tuple[list[tuple], list[Record], list[str]]:
    """The full trace of a script for a group, the records of the end of input, and the lines of output."""
    machine, trace = Machine(is_kept), []
    for line in script:
        owner = line.split(" ")[0]
        ends, turn = machine.ends_other_turn(owner), machine.turn
        machine.records = []
        if ends:
            machine.end_turn()
        before, machine.records, start = machine.records, [], len(machine.output)
        machine.line(line)
        own = machine.records
        if is_kept(owner):
            trace.append(("line", line, before + own))
            continue
        if ends and is_kept(turn):
            trace.append(("ended", before))
        outward = outward_of(machine, line, machine.output[start:][-1].startswith(f"{owner} ok"))
        if outward:
            trace.append(("outward", *outward, own[0].reached))
    machine.records = []
    if machine.turn:
        machine.end_turn()
    return trace, machine.records, machine.output


def silent_run(trace: list[tuple], at_end: list[Record], is_kept: Group) -> list[str]:
    """The output of a full trace, in which all owners outside the group are silent."""
    machine = Machine(is_kept, True)
    for kind, *item in trace:
        if kind == "line":
            machine.told = list(item[1])
            machine.line(item[0])
        elif kind == "ended":
            machine.told = list(item[0])
            machine.end_turn()
        else:
            host, event, reached = item
            machine.told = [Record(reached, False)]
            machine.fire(host, None, event)
    machine.told = list(at_end)
    if machine.turn:
        machine.end_turn()
    return machine.output
