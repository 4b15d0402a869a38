"""Sessions of the line protocol, over ctypes and the shared object `libowlantimony.so`, or served by another program."""
from __future__ import annotations

import ctypes
import os
import threading
import warnings
from collections.abc import Callable
from types import TracebackType
from typing import Any

from .pickling import NotPickled
from .served import ServedLibrary, is_served

__all__ = ["ClosedError", "NoOwnerError", "OutOfMemoryError", "Session", "WrongThreadError", "library_or_session", "library_path"]

DONE, CLOSED, MEMORY, SHORT, OWNER, OPEN = range(6)
FIRST_ROOM = 1 << 16


class OutOfMemoryError(MemoryError):
    """The engine was refused memory. Every later call of this session but `close` says so too."""


class ClosedError(ValueError):
    """The session is closed."""


class NoOwnerError(ValueError):
    """The word is no owner's: an owner is "p", or a component such as "c1", "c2" and "c1.1"."""


class WrongThreadError(RuntimeError):
    """The session was made by another thread, and is used by that one alone."""


class _Handle(ctypes.Structure):
    """The block that the library keeps a session by; all zero bytes are a closed one."""

    _fields_ = [("is_open", ctypes.c_bool), ("held", ctypes.c_void_p)]


def library_path() -> str:
    """Give the path of the shared object: the variable OWLANTIMONY, or it stands beside the module, or where `tools/build library` puts it.

    The variable may also name a socket where sessions are served, as `tools/try` of the repository does."""
    named = os.environ.get("OWLANTIMONY")
    if named:
        return named
    here = os.path.dirname(os.path.abspath(__file__))
    beside = os.path.join(here, "libowlantimony.so")
    return beside if os.path.exists(beside) else os.path.join(here, "..", "..", "out", "libowlantimony.so")


def library_or_session() -> str | Session:
    """Give the path of the shared object or, where sessions are served on a socket, a new one of these."""
    path = library_path()
    return Session(path) if is_served(path) else path


def _load(path: str) -> Any:
    """Give the library, with the types of its functions."""
    if is_served(path):
        return ServedLibrary(path)
    try:
        library = ctypes.CDLL(path)
    except OSError as fault:
        raise OSError(f"{fault}: `tools/build library` proves and builds the library, or OWLANTIMONY names it") from None
    handle, count, size = ctypes.POINTER(_Handle), ctypes.c_size_t, ctypes.POINTER(ctypes.c_size_t)
    text = ctypes.c_char_p
    for name, words in {
        "new": [handle],
        "line": [handle, text, count, size],
        "finish": [handle, size],
        "text": [handle, text, count, size],
        "view": [handle, text, count, text, count, size],
        "drop": [handle],
    }.items():
        function = getattr(library, f"dom_session_{name}")
        function.argtypes, function.restype = words, ctypes.c_uint32
    return library


def _lines(text: bytes) -> list[str]:
    """Give the lines of a text, of which each ends in a line feed."""
    return text.decode("utf-8").split("\n")[:-1]


class Session(NotPickled):
    """A run of the line protocol. `close` frees it, and so does the end of a `with` block.

    Every method raises `ClosedError` on a closed session, `OutOfMemoryError` where memory was refused to it or to an earlier call,
    and `WrongThreadError` in another thread than the one that made the session.
    """

    def __init__(self, library: str | None = None) -> None:
        """Open a session before its first line, of the shared object at a path. Raise `OSError` where it is not there."""
        self._thread = threading.get_ident()
        self._handle = _Handle()
        self._size = ctypes.c_size_t()
        self._buffer = ctypes.create_string_buffer(FIRST_ROOM)
        self._library = _load(library or library_path())
        self._check(self._library.dom_session_new(self._handle), "a new session")

    def __enter__(self) -> Session:
        return self

    def __exit__(self, kind: type[BaseException] | None, fault: BaseException | None, trace: TracebackType | None) -> None:
        self.close()

    def __del__(self) -> None:
        if not hasattr(self, "_library"):
            return
        if self._thread == threading.get_ident():
            self.close()
        elif self._handle.is_open:
            warnings.warn("a session was dropped by another thread than the one that made it, and is not freed", ResourceWarning)

    def line(self, text: str) -> list[str]:
        """Run a line, and give the lines that answer it, without their line feeds. A line that is refused is answered too."""
        return _lines(self.line_bytes(text.encode("utf-8", "surrogatepass")))

    def line_bytes(self, line: bytes) -> bytes:
        """Run a line of bytes, and give the text that answers it, each of its lines with a line feed."""
        self._check_thread()
        self._check(self._library.dom_session_line(self._handle, line, len(line), self._size), line[:80])
        return self._text()

    def finish(self) -> list[str]:
        """End the input: an open turn is ended, and the lines of its microtasks are given. More lines may follow."""
        self._check_thread()
        self._check(self._library.dom_session_finish(self._handle, self._size), "the end of the input")
        return _lines(self._text())

    def view(self, owner: str) -> list[str]:
        """Give what an owner, such as "p", "c1" and "c1.1", sees of the last answer. Raise `NoOwnerError` for another word."""
        self._check_thread()
        word = owner.encode("utf-8", "surrogatepass")
        self._check(self._copy(self._library.dom_session_view, word, len(word)), f"the view of {owner}")
        return _lines(self._copied())

    def close(self) -> None:
        """Free the session. A closed session stays closed."""
        self._check_thread()
        self._library.dom_session_drop(self._handle)

    def _text(self) -> bytes:
        """Give the text of the last answer."""
        self._check(self._copy(self._library.dom_session_text), "an answer")
        return self._copied()

    def _copy(self, call: Callable[..., int], *words: object) -> int:
        """Copy a text into the buffer, which grows where it is too short, and give the status."""
        status = call(self._handle, *words, self._buffer, len(self._buffer), self._size)
        if status == SHORT:
            self._buffer = ctypes.create_string_buffer(self._size.value)
            status = call(self._handle, *words, self._buffer, len(self._buffer), self._size)
        return status

    def _copied(self) -> bytes:
        """Give what was copied. A buffer that a long text has made large is not kept."""
        text = ctypes.string_at(self._buffer, self._size.value)
        if len(self._buffer) > FIRST_ROOM:
            self._buffer = ctypes.create_string_buffer(FIRST_ROOM)
        return text

    def _check_thread(self) -> None:
        if self._thread != threading.get_ident():
            raise WrongThreadError("a session is used and closed by the thread that made it")

    def _check(self, status: int, what: str | bytes) -> None:
        """Raise what a status means."""
        if status == DONE:
            return
        if status == CLOSED:
            raise ClosedError("the session is closed")
        if status == MEMORY:
            raise OutOfMemoryError(f"memory was refused to this call or an earlier one: {what!r}")
        if status == OWNER:
            raise NoOwnerError(f"no owner's word: {what!r}")
        raise RuntimeError(f"status {status}: {what!r}")
