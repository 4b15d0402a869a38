"""What an owner is told, and whom it calls back for it."""
from __future__ import annotations

from collections.abc import Callable
from typing import TYPE_CHECKING, Any

from .events import ShownEvent
from .records import MutationRecord, record_of

if TYPE_CHECKING:
    from .observers import MutationObserver
    from .owner import Owner

__all__ = ["Callbacks", "callback_or_error"]

Listener = Any
"""What is called with a `ShownEvent`, or has a method `handleEvent` that is."""


def callback_or_error(callback: Any) -> Any:
    """Give what can be called. Raise TypeError for anything else."""
    if not callable(callback):
        raise TypeError(f"a callback is wanted, and this can't be called: {callback!r}")
    return callback


class Callbacks:
    """An owner's listeners, microtasks and observers, by the labels under which the engine knows them.

    A callback has one label as a capturing listener and another one as one that does not capture, so that a node, a type and a label
    name one listener. What is removed before it is called, by what was called before it, is not called.
    """

    __slots__ = ("_owner", "_labels", "_listeners", "_registered", "_due", "_microtasks", "_count", "observers", "records")

    def __init__(self, owner: Owner) -> None:
        self._owner = owner
        self._labels: dict[tuple[Listener, bool], str] = {}
        self._listeners: dict[str, tuple[Listener, bool]] = {}
        self._registered: dict[str, dict[tuple[str, str], bool]] = {}
        self._due: dict[object, tuple[Listener, bool, str, str]] = {}
        """Who is to be called still of a dispatch: the callback, whether it captures, the node and the type."""
        self._microtasks: dict[str, Callable[[], Any]] = {}
        self._count = 0
        self.observers: dict[str, MutationObserver] = {}
        self.records: dict[str, list[MutationRecord]] = {}
        """What is to be told still, by the observers' names."""

    def _label(self, letter: str) -> str:
        self._count += 1
        return f"{letter}{self._count}"

    def listen(self, node: str, kind: str, callback: Listener, capture: bool, words: str, once: bool) -> None:
        """Add a listener at a node. One that is there already stays as it is."""
        self._owner.engine.begin(self._owner)
        key = (callback, capture)
        label = self._labels.get(key) or self._label("l")
        self._owner.ask(f"listen {node} {kind} {label} {words}")
        self._labels[key] = label
        self._listeners[label] = key
        self._registered.setdefault(label, {}).setdefault((node, kind), once)

    def unlisten(self, node: str, kind: str, callback: Listener, capture: bool) -> None:
        """Take a listener away, if it is there."""
        self._owner.engine.begin(self._owner)
        gone = (callback, capture, node, kind)
        for token in [token for token, due in self._due.items() if due == gone]:
            del self._due[token]
        label = self._labels.get((callback, capture))
        if label is not None and (node, kind) in self._registered[label]:
            self._owner.ask(f"unlisten {node} {kind} {label}{' capture' if capture else ''}")
            self._forget(label, node, kind)

    def _forget(self, label: str, node: str, kind: str) -> None:
        """Forget a listener that is gone, and its callback where it was the last one with it."""
        places = self._registered[label]
        del places[node, kind]
        if not places:
            del self._registered[label], self._labels[self._listeners.pop(label)]

    def event_call(self, line: str) -> Callable[[], Any]:
        """Give what is to be called for a line that shows an event to a listener."""
        _, _, label, kind, *fields = line.split(" ")
        shown = dict(field.split("=", 1) for field in fields)
        token, node = object(), shown["current"]
        callback, capture = self._listeners[label]
        self._due[token] = (callback, capture, node, kind)
        if self._registered[label][node, kind]:
            self._forget(label, node, kind)
        event = ShownEvent(self._owner, kind, shown)
        return lambda: self._show(token, event)

    def _show(self, token: object, event: ShownEvent) -> None:
        """Call a listener, if it was not removed before this."""
        due = self._due.pop(token, None)
        if due is not None:
            (due[0] if callable(due[0]) else due[0].handleEvent)(event)

    def queue(self, callback: Callable[[], Any]) -> None:
        """Queue a microtask."""
        label = self._label("t")
        self._owner.ask(f"micro {label}")
        self._microtasks[label] = callback

    def microtask_call(self, label: str) -> Callable[[], Any]:
        """Give what is to be called for a microtask that was run."""
        return self._microtasks.pop(label)

    def record_call(self, observer: str, lines: list[str]) -> Callable[[], Any]:
        """Give what is to be called for the records of an observer."""
        told = self.observers[observer]
        self.records.setdefault(observer, []).extend(record_of(self._owner, line) for line in lines)
        return lambda: self._tell(observer, told)

    def _tell(self, name: str, told: MutationObserver) -> None:
        """Call an observer back, if its records were not taken before this."""
        records = self.records.pop(name, None)
        if records:
            told.callback(records, told)
