"""The text of a tree, as the command `tree` answers it, in one pass and without recursion."""
from __future__ import annotations

import re
from collections.abc import Iterator
from itertools import takewhile
from typing import NamedTuple

from ..strings import unquote_known

__all__ = ["Part", "Token", "attributes_of_first", "kind_of_first", "parts_of", "text_in", "tokens"]

_STRING = r'"[^"\\]*(?:\\.[^"\\]*)*"'
_TOKEN = re.compile(
    rf"\((?P<node>\S+) (?:(?P<kind>document|fragment|shadow)|element (?P<tag>[^ )]+)|(?P<data>text|comment) (?P<value>{_STRING}))"
    rf"|(?P<name>[^ ()\"=]+)=(?P<string>{_STRING})|(?P<close>\))"
)
NODE_NAMES = {"document": "#document", "fragment": "#document-fragment", "shadow": "#shadow-root", "text": "#text", "comment": "#comment"}


class Token(NamedTuple):
    """A part of a tree's text: `open` has a node with its node name and data, `attribute` a name and a value, `close` nothing."""

    what: str
    name: str = ""
    node_name: str = ""
    value: str = ""


class Part(NamedTuple):
    """The beginning of a node with all that it has itself (`begin`), or its end (`end`)."""

    what: str
    name: str = ""
    node_name: str = ""
    value: str = ""
    attributes: dict[str, str] = {}


_CLOSE = Token("close")
_END = Part("end")


def tokens(text: str) -> Iterator[Token]:
    """Give the parts of a tree's text in tree order."""
    for match in _TOKEN.finditer(text):
        last = match.lastgroup
        if last == "close":
            yield _CLOSE
        elif last == "string":
            yield Token("attribute", match["name"], value=unquote_known(match["string"]))
        else:
            yield Token("open", match["node"], *_name_and_data(match))


def _name_and_data(match: re.Match[str]) -> tuple[str, str]:
    """Give the node name and the data of the node that a match begins."""
    if match.lastgroup == "tag":
        return match["tag"], ""
    if match.lastgroup == "value":
        return NODE_NAMES[match["data"]], unquote_known(match["value"])
    return NODE_NAMES[match["kind"]], ""


def parts_of(text: str) -> Iterator[Part]:
    """Give the beginnings and the ends of a tree's nodes in tree order."""
    attributes: dict[str, str] = {}
    for match in _TOKEN.finditer(text):
        if match.lastgroup == "close":
            yield _END
        elif match.lastgroup == "string":
            attributes[match["name"]] = unquote_known(match["string"])
        else:
            attributes = {}
            yield Part("begin", match["node"], *_name_and_data(match), attributes)


def text_in(text: str) -> str:
    """Give the data of all Texts of a tree, in tree order."""
    return "".join(token.value for token in tokens(text) if token.node_name == "#text")


def kind_of_first(text: str) -> str:
    """Give the node name of a tree's root."""
    return next(tokens(text)).node_name


def attributes_of_first(text: str) -> list[str]:
    """Give the names of the attributes of a tree's root, in order."""
    parts = tokens(text)
    next(parts)
    return [token.name for token in takewhile(lambda token: token.what == "attribute", parts)]
