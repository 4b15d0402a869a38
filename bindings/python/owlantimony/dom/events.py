"""Events: what is dispatched, and what a listener is shown of it."""
from __future__ import annotations

import re
from collections.abc import Mapping
from typing import TYPE_CHECKING, Any
from xml.dom import NotSupportedErr

from ..pickling import NotPickled

if TYPE_CHECKING:
    from .owner import Owner

__all__ = ["Event", "EventTarget", "ShownEvent"]

_TYPE = re.compile(r"[A-Za-z0-9_.:-]{1,64}")
_ACTIONS = ("log", "stop", "stop-now", "cancel")
_OPTIONS = {"capture": False, "once": False, "passive": False, "action": "log"}


def _options_of(capture: Any, options: dict[str, Any]) -> dict[str, Any]:
    """Give all options of a listener, of which some may stand in a mapping in place of `capture`, as browsers have it."""
    told = {**options, **(capture if isinstance(capture, Mapping) else {"capture": capture})}
    for name in told:
        if name not in _OPTIONS:
            raise TypeError(f"a listener's options are {', '.join(_OPTIONS)}: {name!r}")
    return {**_OPTIONS, **told}


def _is_listener(callback: Any) -> bool:
    """Give whether a callback is one, and no None, for which the Standard adds nothing. Raise TypeError for what can't be called."""
    if callback is None or callable(callback) or callable(getattr(callback, "handleEvent", None)):
        return callback is not None
    raise TypeError(f"a callback is called, or has a method handleEvent: {callback!r}")


def _type_or_error(kind: str) -> str:
    if not isinstance(kind, str):
        raise TypeError(f"an event's type is a string: {kind!r}")
    if not _TYPE.fullmatch(kind):
        raise ValueError(f"an event's type is 1 to 64 letters, digits, '-', '_', '.' and ':': {kind[:80]!r}")
    return kind


class Event:
    """An event that is to be dispatched (DOM Standard, #interface-event). It may be dispatched more than once."""

    NONE, CAPTURING_PHASE, AT_TARGET, BUBBLING_PHASE = range(4)
    __slots__ = ("type", "bubbles", "cancelable", "composed", "relatedTarget")

    def __init__(
        self, type: str, *, bubbles: bool = False, cancelable: bool = False, composed: bool = False, relatedTarget: Any = None
    ) -> None:
        self.type = _type_or_error(type)
        self.bubbles = bubbles
        self.cancelable = cancelable
        self.composed = composed
        self.relatedTarget = relatedTarget

    def __repr__(self) -> str:
        return f"<Event {self.type}>"


class ShownEvent:
    """What one listener was shown of an event, after the dispatch.

    `target`, `currentTarget`, `relatedTarget` and the nodes of `composedPath()` are those that the listener's owner may see: own nodes
    as nodes, and the nodes of the trees around its own as `ForeignNode`s.
    """

    NONE, CAPTURING_PHASE, AT_TARGET, BUBBLING_PHASE = range(4)
    __slots__ = ("type", "eventPhase", "target", "currentTarget", "relatedTarget", "_path")

    def __init__(self, owner: Owner, kind: str, shown: dict[str, str]) -> None:
        self.type = kind
        self.eventPhase = int(shown["phase"])
        self.target = owner.seen(shown["target"])
        self.currentTarget = owner.seen(shown["current"])
        self.relatedTarget = owner.seen(shown["related"])
        self._path = [owner.seen(name) for name in shown["path"][1:-1].split(",")]

    def composedPath(self) -> list[Any]:
        """Give the event's path, from the target outwards, as far as the listener's owner may see it."""
        return list(self._path)

    def preventDefault(self) -> None:
        """Raise NotSupportedErr: the dispatch is over. A listener with `action="cancel"` cancels."""
        raise NotSupportedErr('the dispatch is over: give addEventListener the action "cancel"')

    def stopPropagation(self) -> None:
        """Raise NotSupportedErr: the dispatch is over. A listener with `action="stop"` stops."""
        raise NotSupportedErr('the dispatch is over: give addEventListener the action "stop"')

    def stopImmediatePropagation(self) -> None:
        """Raise NotSupportedErr: the dispatch is over. A listener with `action="stop-now"` stops at once."""
        raise NotSupportedErr('the dispatch is over: give addEventListener the action "stop-now"')

    def __repr__(self) -> str:
        return f"<ShownEvent {self.type} at {self.currentTarget!r}>"


class EventTarget(NotPickled):
    """Listeners and dispatch (DOM Standard, #interface-eventtarget)."""

    __slots__ = ()
    _owner: Owner
    _name: str

    def addEventListener(
        self,
        type: str,
        callback: Any,
        capture: bool | Mapping[str, Any] = False,
        once: bool = False,
        passive: bool = False,
        action: str = "log",
    ) -> None:
        """Add a listener whose callback can't change the dispatch under way: it is called once the dispatch is over.

        What the listener does to the dispatch is said by `action`: "log" nothing, "stop" as stopPropagation, "stop-now" as
        stopImmediatePropagation, "cancel" as preventDefault. After the dispatch `callback` gets a `ShownEvent` for each time that the
        listener was called in it. A listener with the same type, callback and capture is added once, as it was added first.

        A callback is called, or has a method `handleEvent` that is; for None nothing is added. Options may also stand in a mapping in
        place of `capture`, as `{"once": True}`. Raise ValueError for another action or type, and TypeError for another callback or
        option."""
        options = _options_of(capture, {"once": once, "passive": passive, "action": action})
        if options["action"] not in _ACTIONS:
            raise ValueError(f"an action is one of {', '.join(_ACTIONS)}: {options['action']!r}")
        words = "".join(f" {name}" for name in ("capture", "once", "passive") if options[name])
        kind = _type_or_error(type)
        if _is_listener(callback):
            words = f"{options['action']}{words}"
            self._owner.callbacks.listen(self._name, kind, callback, bool(options["capture"]), words, bool(options["once"]))

    def removeEventListener(self, type: str, callback: Any, capture: bool | Mapping[str, Any] = False) -> None:
        """Remove the listener with this type, callback and capture, if it is there. A mapping may stand for `capture`, as in
        `addEventListener`."""
        options = _options_of(capture, {})
        kind = _type_or_error(type)
        if _is_listener(callback):
            self._owner.callbacks.unlisten(self._name, kind, callback, bool(options["capture"]))

    def dispatchEvent(self, event: Event) -> bool:
        """Dispatch an event here, and give False exactly where a listener cancelled it. Callbacks are called before this returns.

        Raise TypeError for what is no `Event`, and where a component's related target has another root than this node."""
        if not isinstance(event, Event):
            raise TypeError(f"an Event is dispatched, as Event('click'): {event!r}")
        words = " bubbles" * bool(event.bubbles) + " cancelable" * bool(event.cancelable) + " composed" * bool(event.composed)
        if event.relatedTarget is not None:
            words += f" related {self._owner.name_of(event.relatedTarget)}"
        return self._owner.ask(f"dispatch {self._name} {_type_or_error(event.type)}{words}") == "true"
