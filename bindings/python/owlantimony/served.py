"""Sessions that another program serves on a socket: the functions of the library that a `Session` calls, over a connection.

`tools/try` of the repository serves them so, of an engine that is built without a proof. A request is a line with a verb and the number of
bytes, and then the bytes; an answer is a line with the status that the library has for the call and the number of bytes, and then the bytes.
"""
from __future__ import annotations

import contextlib
import ctypes
import os
import socket
import stat
from typing import Any

__all__ = ["ServedLibrary", "is_served"]

_SHORT = 3


def is_served(path: str) -> bool:
    """Give whether a path names a socket, and no library."""
    try:
        return stat.S_ISSOCK(os.stat(path).st_mode)
    except OSError:
        return False


class ServedLibrary:
    """One session over a connection of its own, with the functions and the statuses of the library's `dom_session_` functions.

    Raise `ConnectionError` where the program that serves it has ended."""

    def __init__(self, path: str) -> None:
        """Connect to the socket at a path."""
        self._socket = socket.socket(socket.AF_UNIX)
        self._socket.connect(path)
        self._stream = self._socket.makefile("rwb")
        self._text = b""

    def _ask(self, verb: str, words: bytes = b"") -> tuple[int, bytes]:
        """Ask for something, and give the status and the bytes that answer it."""
        self._stream.write(b"%s %d\n%s" % (verb.encode("ascii"), len(words), words))
        self._stream.flush()
        head = self._stream.readline().split()
        if len(head) != 2:
            raise ConnectionError("the program that serves sessions has ended")
        return int(head[0]), self._stream.read(int(head[1]))

    def _run(self, size: Any, verb: str, line: bytes = b"") -> int:
        """Run a line or the end of the input, and keep the text that answers it."""
        status, self._text = self._ask(verb, line)
        size.value = len(self._text)
        return status

    def _copy(self, text: bytes, buffer: Any, room: int, size: Any) -> int:
        """Copy a text into a buffer with so much room, if it has it."""
        size.value = len(text)
        if len(text) > room:
            return _SHORT
        ctypes.memmove(buffer, text, len(text))
        return 0

    def dom_session_new(self, handle: Any) -> int:
        """Open the session."""
        handle.is_open = True
        return 0

    def dom_session_line(self, handle: Any, line: bytes, count: int, size: Any) -> int:
        """Run a line."""
        return self._run(size, "line", line) if handle.is_open else 1

    def dom_session_finish(self, handle: Any, size: Any) -> int:
        """End the input."""
        return self._run(size, "finish") if handle.is_open else 1

    def dom_session_text(self, handle: Any, buffer: Any, room: int, size: Any) -> int:
        """Copy the text of the last answer."""
        return self._copy(self._text, buffer, room, size)

    def dom_session_view(self, handle: Any, word: bytes, count: int, buffer: Any, room: int, size: Any) -> int:
        """Copy what an owner sees of the last answer."""
        status, text = self._ask("view", word) if handle.is_open else (1, b"")
        return status or self._copy(text, buffer, room, size)

    def dom_session_drop(self, handle: Any) -> int:
        """Free the session."""
        handle.is_open = False
        with contextlib.suppress(OSError):
            self._stream.close()
        self._socket.close()
        return 0
