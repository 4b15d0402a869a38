"""What an observer is told of one change."""
from __future__ import annotations

import re
from typing import TYPE_CHECKING, Any, NamedTuple

from ..strings import unquote_known

if TYPE_CHECKING:
    from .owner import Owner

__all__ = ["MutationRecord", "record_of"]

_RECORD = re.compile(
    r"\S+ record \S+ (?P<type>childList|attributes|characterData) (?P<target>\S+)"
    r"(?: added=\[(?P<added>\S*)\] removed=\[(?P<removed>\S*)\] prev=(?P<previous>\S+) next=(?P<next>\S+)"
    r"|(?: name=(?P<name>\S+))? old=(?P<old>null|\".*\"))"
)


class MutationRecord(NamedTuple):
    """One change (DOM Standard, #interface-mutationrecord)."""

    type: str
    target: Any
    addedNodes: list[Any]
    removedNodes: list[Any]
    previousSibling: Any
    nextSibling: Any
    attributeName: str | None
    oldValue: str | None

    @property
    def attributeNamespace(self) -> None:
        """None: no attribute has a namespace."""


def record_of(owner: Owner, line: str) -> MutationRecord:
    """Give the record that a line tells."""
    match = _RECORD.fullmatch(line)
    assert match is not None, line
    old = match["old"]
    return MutationRecord(
        match["type"],
        owner.node(match["target"]),
        [owner.node(name) for name in (match["added"] or "").split(",") if name],
        [owner.node(name) for name in (match["removed"] or "").split(",") if name],
        owner.node(match["previous"] or "null"),
        owner.node(match["next"] or "null"),
        match["name"],
        None if old in (None, "null") else unquote_known(old),
    )
