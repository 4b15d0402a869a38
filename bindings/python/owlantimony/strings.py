"""Strings of the DOM, which are lists of 16-bit code units, as strings of Python and as those of the line protocol.

A string of Python has a pair of surrogates as one character and a lone surrogate as itself. Lengths and offsets of the DOM count code
units: "a\U0001f600" has three.
"""
from __future__ import annotations

import re

__all__ = ["pieces_of", "quote", "slice_of", "units", "unquote"]

_ESCAPED_IN_A_LINE = re.compile(r"[^ !#-\[\]-~]")
_ESCAPE = re.compile(r'\\(?:u([0-9a-fA-F]{4})|(["\\]))')
_STRING = re.compile(r'"(?:[ !#-\[\]-~]|\\["\\]|\\u[0-9a-fA-F]{4})*"', re.ASCII)
_TEN_THOUSAND_ITEMS = re.compile(r"(?:[^\\]|\\u.{4}|\\.){1,10000}")
_SURROGATE = re.compile("[\ud800-\udfff]")
PIECE = 10_000


def quote(text: str) -> str:
    """Give a string as the line protocol writes it: in quotation marks, and ASCII. Raise TypeError for what is no string."""
    if not isinstance(text, str):
        raise TypeError(f"a string is wanted: {text!r}")
    return f'"{_ESCAPED_IN_A_LINE.sub(_escape, text)}"'


def _escape(match: re.Match[str]) -> str:
    character = match.group()
    if character in '"\\':
        return "\\" + character
    digits = character.encode("utf-16-be", "surrogatepass").hex()
    return "".join(f"\\u{digits[at : at + 4]}" for at in range(0, len(digits), 4))


def unquote(text: str) -> str:
    """Give the string that stands in a line. Raise `ValueError` where `text` is no string of the line protocol."""
    if not _STRING.fullmatch(text):
        raise ValueError(f"no string of the line protocol: {text[:80]}")
    return unquote_known(text)


def unquote_known(text: str) -> str:
    """Give the string of a text that the engine wrote, which is well formed."""
    if "\\" not in text:
        return text[1:-1]
    plain = _ESCAPE.sub(_plain, text[1:-1])
    return _joined(plain) if _SURROGATE.search(plain) else plain


def _plain(match: re.Match[str]) -> str:
    return chr(int(match.group(1), 16)) if match.group(1) else match.group(2)


def _joined(text: str) -> str:
    """Join the pairs of surrogates of a string."""
    return text.encode("utf-16-le", "surrogatepass").decode("utf-16-le", "surrogatepass")


def units(text: str) -> int:
    """Give how many code units a string has."""
    return len(text) if text.isascii() else len(text.encode("utf-16-le", "surrogatepass")) // 2


def slice_of(text: str, start: int, end: int) -> str:
    """Give the code units of a string from `start` to `end`. A pair that is cut leaves lone surrogates."""
    if text.isascii():
        return text[start:end]
    return text.encode("utf-16-le", "surrogatepass")[2 * start : 2 * end].decode("utf-16-le", "surrogatepass")


def pieces_of(text: str) -> list[str]:
    """Give a string's code units as quoted strings that follow one another: each has `PIECE` code units, but for the last."""
    return [f'"{piece}"' for piece in _TEN_THOUSAND_ITEMS.findall(quote(text)[1:-1])]
