"""What is raised: the exceptions of `xml.dom`, and three that it has no class for."""
from __future__ import annotations

import sys
from xml import dom

__all__ = ["CallbackErrors", "InvalidNodeTypeErr", "LimitErr", "refusal", "refusal_names", "together"]

if sys.version_info >= (3, 11):

    class CallbackErrors(ExceptionGroup[Exception]):
        """More than one callback raised an exception. `exceptions` has them, in the order in which they were raised."""

else:

    class CallbackErrors(Exception):
        """More than one callback raised an exception. `exceptions` has them, in the order in which they were raised."""

        def __init__(self, message: str, exceptions: list[Exception]) -> None:
            super().__init__(f"{message}: {'; '.join(map(repr, exceptions))}")
            self.exceptions = tuple(exceptions)


class LimitErr(dom.DOMException):
    """One owner has made 1,000,000 nodes, ranges, iterators, walkers or observers, or 1,000 components, or more than eight would stand
    in each other. The limits are the engine's own, and count what is gone as well."""

    code = 22


class InvalidNodeTypeErr(dom.DOMException):
    """A node is of a kind that the call can't take (the Standard's InvalidNodeTypeError)."""

    code = 24


_CLASSES: dict[str, type[Exception]] = {
    "syntax": dom.SyntaxErr,
    "busy": dom.InvalidStateErr,
    "foreign": dom.WrongDocumentErr,
    "unknown": dom.InvalidStateErr,
    "wrong-kind": TypeError,
    "hierarchy": dom.HierarchyRequestErr,
    "not-found": dom.NotFoundErr,
    "not-supported": dom.NotSupportedErr,
    "invalid-character": dom.InvalidCharacterErr,
    "selector": dom.SyntaxErr,
    "index-size": dom.IndexSizeErr,
    "type": TypeError,
    "limit": LimitErr,
}
refusal_names = ("ok", *_CLASSES)
"""The refusals by their numbers in the protocol."""
_MOST_SHOWN = 200
LONGEST_LINE = 65_536


def together(faults: list[Exception]) -> Exception:
    """Give one exception for what callbacks raised: the only one, or a group of all."""
    return faults[0] if len(faults) == 1 else CallbackErrors(f"{len(faults)} callbacks raised an exception", faults)


def refusal(name: str, line: str, told: str = "") -> Exception:
    """Give the exception of a refusal, with the line that was refused and what is told of it."""
    if name == "syntax" and len(line) > LONGEST_LINE:
        return dom.DomstringSizeErr(f"longer than {LONGEST_LINE} bytes: {_shown(line)}")
    return _CLASSES[name](f"{name}: {_shown(line)}{told}")


def _shown(line: str) -> str:
    return line if len(line) <= _MOST_SHOWN else line[:_MOST_SHOWN] + ".."
