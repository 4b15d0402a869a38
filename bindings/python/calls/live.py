"""Callbacks that run while an event is under way, over the typed calls of the extension: prepared, and a part of no package until the library has these calls.

`install(cold)` has documents opened over the extension's calls. `cold(address)` gives what runs the lines of commands for which the extension has no call yet.
"""
from __future__ import annotations

import sys
from collections.abc import Callable
from typing import Any
from xml.dom import InvalidStateErr, NotSupportedErr

from owlantimony import dom
from owlantimony.dom import callbacks, components, document, events, nativeowner
from owlantimony.dom.errors import refusal, refusal_names
from owlantimony.dom.extension import engine_module
from owlantimony.dom.owner import ForeignNode
from owlantimony.dom.records import MutationRecord

CALL = 18
CAPTURE, ONCE, PASSIVE, BUBBLES, CANCELABLE, COMPOSED = 1, 2, 4, 8, 16, 32
EVENT, MICROTASK = 1, 5
RECORDS = {2: "childList", 3: "attributes", 4: "characterData"}


class Event(events.Event):
    """An event (DOM Standard, #interface-event): each owner that is called is shown one object of a dispatch, the one who dispatches it this one.

    What it says of targets is what the owner may see. After the dispatch `eventPhase` is 0, and `currentTarget` is None.
    """

    __slots__ = ("target", "currentTarget", "eventPhase", "_path", "_prevented", "_owner", "is_dispatched")

    def __init__(self, type: str, **words: Any) -> None:
        super().__init__(type, **words)
        self.target = self.currentTarget = None
        self.eventPhase = self.NONE
        self.is_dispatched = False
        self._path: list[Any] = []
        self._prevented = False
        self._owner: Any = None

    def composedPath(self) -> list[Any]:
        """Give the event's path, from the target outwards, as far as the listener's owner may see it; empty where no listener is called."""
        return list(self._path)

    @property
    def defaultPrevented(self) -> bool:
        """Whether the event is cancelled."""
        number = self._number()
        return self._prevented if number is None else engine_module.prevented(self._owner.engine.native, self._owner.place, number)[1]

    def preventDefault(self) -> None:
        """Cancel the event, if it is cancelable and the listener is not passive. Without a listener under way do nothing."""
        self._act(engine_module.prevent)

    def stopPropagation(self) -> None:
        """Let the listeners of no further node be called."""
        self._act(engine_module.stop)

    def stopImmediatePropagation(self) -> None:
        """Let no further listener be called."""
        self._act(engine_module.stop_now)

    def _number(self) -> int | None:
        """Give the number of the owner's call that shows this event, 0 the innermost."""
        calls = [] if self._owner is None else self._owner.callbacks.calls
        return next((number for number, shown in enumerate(reversed(calls)) if shown is self), None)

    def _act(self, act: Callable[..., int]) -> None:
        number = self._number()
        if number is not None:
            act(self._owner.engine.native, self._owner.place, number)

    def _begin(self, owner: Any, told: tuple[Any, ...]) -> None:
        _, _, _, _, self.eventPhase, _, target, current, related, path = told
        self._owner = owner
        self.target, self.currentTarget, self.relatedTarget = owner.seen_at(target), owner.seen_at(current), owner.seen_at(related)
        self._path = [owner.seen_at(node) for node in path]

    def _end(self) -> None:
        self._prevented = self.defaultPrevented
        self.currentTarget = None
        self.eventPhase = self.NONE
        self._path = []


class CallsEngine(nativeowner.NativeEngine):
    """A document without turns. What is under way goes on by `run`, which calls whose callback is due."""

    __slots__ = ("places",)
    cold: Callable[[int], Any]

    def __init__(self, over: Any = None) -> None:
        super().__init__(over)
        self.places: list[CallsOwner] = []
        self.session = self.cold(engine_module.address(self.native))

    def begin(self, owner: Any) -> None:
        """Do nothing: any owner acts at any time."""

    def exchange(self, owner: Any, command: str) -> tuple[list[str], str]:
        told = super().exchange(owner, command)
        engine_module.forget(self.native)
        return told

    def run(self, went: tuple[int, Any], shown: dict[int, Event] | None = None) -> bool:
        """Call whose callback is due, until what began is over, and give how it ended: whether an event was not cancelled."""
        status, value = went
        while status == CALL:
            owner = self.places[value[0][1]]
            self._call(lambda: owner.callbacks.called(value, shown))
            status, value = engine_module.give_back(self.native, owner.place)
        if status:
            raise refusal(refusal_names[status], "an event, or a checkpoint in a callback")
        return bool(value)

    def end_turn(self) -> None:
        """Run the tasks. Raise then what callbacks raised. In a callback it is refused."""
        first = len(self._kept)
        self.run(engine_module.checkpoint(self.native))
        self._raise_kept(first)

    def close(self) -> None:
        self.native.close()


class CallsOwner(nativeowner.NativeOwner):
    """An owner by its place in the document's table."""

    __slots__ = ("place",)

    def __init__(self, engine: CallsEngine, word: str) -> None:
        super().__init__(engine, word)
        self.place = len(engine.places)
        engine.places.append(self)
        self.callbacks = LiveCallbacks(self)

    def ask(self, command: str) -> str:
        return super().ask("observer call" if command == "observer" else command)

    def seen_at(self, node: tuple[int, int] | None) -> Any:
        """Give the object of a node that is told: an own one, a foreign one, or None."""
        if node is None:
            return None
        place, number = node
        if place == self.place:
            return self.table.node(number)
        return ForeignNode(self.engine, f"{self.engine.places[place].word}:m{number}" if place else f"n{number}")


class LiveCallbacks(callbacks.Callbacks):
    """An owner's callbacks, and the events that are shown to those under way, the innermost last."""

    __slots__ = ("calls",)

    def __init__(self, owner: Any) -> None:
        super().__init__(owner)
        self.calls: list[Event | None] = []

    def _done(self, status: int, what: str) -> None:
        if status:
            raise refusal(refusal_names[status], what)

    def listen(self, node: str, kind: str, callback: Any, capture: bool, words: str, once: bool) -> None:
        if not words.startswith("log"):
            raise NotSupportedErr("not-supported: a callback decides by what it calls on the event")
        flags = CAPTURE * capture + ONCE * once + PASSIVE * ("passive" in words)
        key = (callback, capture)
        label = self._labels.get(key) or self._label("l")
        self._done(engine_module.listen(self._owner.engine.native, self._owner.place, int(node[1:]), kind, label, flags), kind)
        self._labels[key] = label
        self._listeners[label] = key
        self._registered.setdefault(label, {}).setdefault((node, kind), once)

    def unlisten(self, node: str, kind: str, callback: Any, capture: bool) -> None:
        label = self._labels.get((callback, capture))
        if label is not None and (node, kind) in self._registered[label]:
            self._done(engine_module.unlisten(self._owner.engine.native, self._owner.place, int(node[1:]), kind, label, CAPTURE * capture), kind)
            self._forget(label, node, kind)

    def queue(self, callback: Callable[[], Any]) -> None:
        label = self._label("t")
        self._done(engine_module.queue(self._owner.engine.native, self._owner.place, label), label)
        self._microtasks[label] = callback

    def dispatch(self, node: Any, event: Event) -> bool:
        """Dispatch an event at a node. Raise what its callbacks raised when all have been called, or what refuses it."""
        engine = self._owner.engine
        if event.is_dispatched:
            raise InvalidStateErr("an event is dispatched again only when it is over")
        flags = BUBBLES * bool(event.bubbles) + CANCELABLE * bool(event.cancelable) + COMPOSED * bool(event.composed)
        related = () if event.relatedTarget is None else (self._owner.place, int(self._owner.name_of(event.relatedTarget)[1:]))
        first = len(engine._kept)
        event.is_dispatched = True
        event.target = node
        try:
            truth = engine.run(engine_module.dispatch(engine.native, self._owner.place, node._number, event.type, flags, *related), {self._owner.place: event})
        finally:
            event.is_dispatched = False
        event._prevented = not truth
        engine._raise_kept(first)
        return truth

    def called(self, told: list[tuple[Any, ...]], shown: dict[int, Event] | None) -> None:
        """Call who is due: a listener, an observer or a microtask."""
        kind = told[0][0]
        if kind == EVENT:
            self._show_event(told[0], shown)
            return
        self.calls.append(None)
        try:
            if kind == MICROTASK:
                self._microtasks.pop(told[0][2])()
            else:
                observer = self.observers[f"o{told[0][2]}"]
                observer.callback([self._record(each) for each in told], observer)
        finally:
            self.calls.pop()

    def _show_event(self, told: tuple[Any, ...], shown: dict[int, Event] | None) -> None:
        _, _, label, kind, _, flags, _, current, _, _ = told
        callback, _ = self._listeners[label]
        at = (f"{self._owner.own}{current[1]}", kind)
        if self._registered[label][at]:
            self._forget(label, *at)
        event = None if shown is None else shown.get(self._owner.place)
        if event is None:
            event = Event(kind, bubbles=bool(flags & BUBBLES), cancelable=bool(flags & CANCELABLE), composed=bool(flags & COMPOSED))
            if shown is not None:
                shown[self._owner.place] = event
        event._begin(self._owner, told)
        self.calls.append(event)
        try:
            (callback if callable(callback) else callback.handleEvent)(event)
        finally:
            event._end()
            self.calls.pop()

    def _record(self, told: tuple[Any, ...]) -> MutationRecord:
        kind, _, _, target, added, removed, previous, following, name, old = told
        see = self._owner.seen_at
        nodes = [see(node) for node in added], [see(node) for node in removed]
        return MutationRecord(RECORDS[kind], see(target), *nodes, see(previous), see(following), name, old)


def _dispatch_event(self: Any, event: Event) -> bool:
    """Dispatch an event here, and give False exactly where it was cancelled. Callbacks are called during this."""
    if not isinstance(event, Event):
        raise TypeError(f"an Event is dispatched, as Event('click'): {event!r}")
    return self._owner.callbacks.dispatch(self, event)


def install(cold: Callable[[int], Any]) -> None:
    """Have documents opened over the extension's calls."""
    CallsEngine.cold = staticmethod(cold)
    document.new_engine = CallsEngine
    document.new_owner = components.new_owner = CallsOwner
    dom.Node.dispatchEvent = _dispatch_event
    dom.Event = sys.modules["owlantimony.dom"].Event = Event
