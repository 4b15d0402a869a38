"""A small page machine, written apart from the engine: it has the page's nodes alone and no shadow trees, and runs a full trace.

The trace is that of machine.py. An event goes along the inclusive ancestors of its target, as many visits as its record says, and `attach`
only counts.
"""
from __future__ import annotations

from machine import UNTOUCHED, Event, Listener, Record, read_dispatch
from trees import PAGE


class PageMachine:
    """The page's part."""

    def __init__(self):
        self.parents, self.listeners, self.tasks, self.output = {0: None}, [], [], []
        self.is_open, self.attached = False, 0

    def say(self, text: str) -> None:
        """A line of output."""
        self.output.append(f"p {text}")

    def fire(self, target: int, related: int | None, event: Event, record: Record) -> bool:
        """Dispatches an event along a target's inclusive ancestors, and answers whether it was not cancelled."""
        path, node = [], target
        while node is not None:
            path.append(node)
            node = self.parents[node]
        shown = f"related={f'n{related}' if related is not None else 'null'} path=[{','.join(f'n{node}' for node in path)}]"
        visits = [(node, True) for node in reversed(path)] + [(node, False) for node in path if event.bubbles or node == target]
        stopped = cancelled = False
        for node, capturing in visits[: record.reached]:
            phase = 2 if node == target else 1 if capturing else 3
            hearing = [one for one in self.listeners if (one.node, one.type, one.capture) == (node, event.type, capturing)]
            for one in [] if stopped else hearing:
                if one.once:
                    self.listeners.remove(one)
                self.say(f"event {one.label} {event.type} phase={phase} target=n{target} current=n{node} {shown}")
                stopped = stopped or one.action in ("stop", "stop-now")
                cancelled = cancelled or one.action == "cancel" and event.cancelable and not one.passive
                if one.action == "stop-now":
                    break
        return not (record.cancelled or cancelled)

    def line(self, line: str, record: Record) -> None:
        """Runs a line of the page."""
        _, command, *words = line.split(" ")
        self.is_open = command != "."
        value = None
        if command == ".":
            self.end_turn()
        elif command == "new":
            value = f"n{len(self.parents)}"
            self.parents[len(self.parents)] = None
        elif command == "append":
            self.parents[int(words[1][1:])] = int(words[0][1:])
        elif command == "remove":
            self.parents[int(words[0][1:])] = None
        elif command == "attach":
            self.attached += 1
            value = f"c{self.attached}"
        elif command == "micro":
            self.tasks.append(words[0])
        elif command == "dispatch":
            (_, target), event, related = read_dispatch(PAGE, words)
            value = "true" if self.fire(target, related and related[1], event, record) else "false"
        else:
            self.listen(command, words)
        self.say("ok" if value is None else f"ok {value}")

    def listen(self, command: str, words: list[str]) -> None:
        """`listen` and `unlisten`"""
        options = words[4:] if command == "listen" else words[3:]
        key = (int(words[0][1:]), words[1], words[2], "capture" in options)
        if command == "unlisten":
            self.listeners = [one for one in self.listeners if one[:4] != key]
        elif all(one[:4] != key for one in self.listeners):
            self.listeners.append(Listener(*key, words[3], "once" in options, "passive" in options))

    def end_turn(self) -> None:
        """Runs the page's microtasks."""
        tasks, self.tasks, self.is_open = self.tasks, [], False
        for label in tasks:
            self.say(f"micro {label}")


def page_run(trace: list[tuple]) -> list[str]:
    """The page machine's output on the page's full trace."""
    machine = PageMachine()
    for kind, *item in trace:
        if kind == "line":
            line, records = item
            machine.line(line, records[0] if records else UNTOUCHED)
        elif kind == "outward":
            host, event, reached = item
            machine.fire(host[1], None, event, Record(reached, False))
    if machine.is_open:
        machine.end_turn()
    return machine.output
