"""One session with all owners over it: who has the turn, and whom the lines that are not replies are for."""
from __future__ import annotations

import warnings
from collections.abc import Callable, Iterator
from itertools import groupby
from typing import TYPE_CHECKING, Any, Protocol

from ..session import Session
from .errors import refusal, together

if TYPE_CHECKING:
    from .owner import Owner

__all__ = ["Engine", "Lines"]


class Lines(Protocol):
    """What a document asks of a session: `Session` has it, and so may any other way to an engine."""

    def line(self, text: str) -> list[str]:
        """Run a line, and give the lines that answer it, the reply last."""

    def finish(self) -> list[str]:
        """End the input, and give the lines of that."""

    def view(self, owner: str) -> list[str]:
        """Give what an owner sees of the last answer."""

    def close(self) -> None:
        """Free the session."""


class Engine:
    """Runs the lines of all owners, and calls back whom the engine told something.

    An owner that speaks while another has the turn ends that turn first, with its microtasks. So a page and its components may be
    written as one program.

    What a callback raises goes to `onerror`, or is kept. A dispatch raises what its own callbacks raised, when it is done, and `end_turn`
    all that is kept; inside a callback that is only what was raised in this end. No other call raises it, so that none is kept from being
    done.
    """

    __slots__ = ("session", "owners", "onerror", "_turn", "_depth", "_kept")

    def __init__(self, session: Lines | None) -> None:
        """Take a session, or open one."""
        self._kept: list[Exception] = []
        self.session: Lines = Session() if session is None else session
        self.owners: dict[str, Owner] = {}
        self.onerror: Callable[[Exception], Any] | None = None
        self._turn: Owner | None = None
        self._depth = 0

    def __del__(self) -> None:
        for fault in getattr(self, "_kept", ()):
            warnings.warn(f"a callback's exception was never raised, as no document was closed: {fault!r}", RuntimeWarning)

    def ask(self, owner: Owner, command: str) -> str:
        """Run a command of an owner, call back whom it told something, and give the value of its reply.

        Raise what a refusal means, and where it told something what callbacks raised."""
        told, value = self.exchange(owner, command)
        if told:
            first = len(self._kept)
            self.deliver(told)
            self._raise_kept(first)
        return value

    def exchange(self, owner: Owner, command: str) -> tuple[list[str], str]:
        """Run a command of an owner, and give the lines in front of its reply, and the value of the reply."""
        self.begin(owner)
        while owner.dropped:
            self.session.line(f"{owner.word} range-drop {owner.dropped.pop()}")
            self._turn = owner
        line = f"{owner.word} {command}"
        answer = self.session.line(line)
        _, done, *value = answer.pop().split(" ", 2)
        if done != "ok":
            raise refusal(value[0], line, owner.told_of(command))
        self._turn = owner
        return answer, value[0] if value else ""

    def begin(self, owner: Owner) -> None:
        """End the open turn, with its callbacks, where it is another owner's."""
        if self._turn is not None and self._turn is not owner:
            self._end()

    def end_turn(self) -> None:
        """End the open turn: microtasks are run and observers notified, until nothing is left, also of what the callbacks queue.

        Raise then what callbacks raised."""
        first = len(self._kept) if self._depth else 0
        self._end()
        self._raise_kept(first)

    def _end(self) -> None:
        while self._turn is not None:
            word, self._turn = self._turn.word, None
            self.deliver(self.session.line(f"{word} .")[:-1])

    def close(self) -> None:
        """Free the session. What was read of it is forgotten, so that each later call asks it, and is told that it is closed."""
        self._turn = None
        self.session.close()
        for owner in self.owners.values():
            owner.forget()

    def deliver(self, lines: list[str]) -> None:
        """Call back for each line, in order. All are called, also where one raises an exception."""
        self._depth += 1
        try:
            for call in list(self._calls(lines)):
                self._call(call)
        finally:
            self._depth -= 1

    def _call(self, call: Callable[[], Any]) -> None:
        """Call, and hand an exception to `onerror`. Keep it where that is None, and keep what that raises itself."""
        try:
            try:
                call()
            except Exception as fault:  # a callback may raise anything
                if self.onerror is None:
                    raise
                self.onerror(fault)
        except Exception as fault:
            self._kept.append(fault)

    def _raise_kept(self, first: int) -> None:
        """Raise what is kept, from the first on that is counted."""
        faults = self._kept[first:]
        del self._kept[first:]
        if faults:
            raise together(faults)

    def _calls(self, lines: list[str]) -> Iterator[Callable[[], None]]:
        """Give what is to be called for the lines: once for an event or a microtask, once for all records of an observer."""
        for heading, group in groupby(lines, _heading):
            word, kind, name = heading
            owner = self.owners[word]
            if kind == "record":
                yield owner.callbacks.record_call(name, list(group))
                continue
            for line in group:
                yield owner.callbacks.event_call(line) if kind == "event" else owner.callbacks.microtask_call(name)


def _heading(line: str) -> tuple[str, str, str]:
    """Give the owner of a line, what it tells, and the label or the observer."""
    word, kind, name = line.split(" ", 3)[:3]
    return word, kind, name
