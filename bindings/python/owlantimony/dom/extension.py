"""The extension module `owlantimony._engine`, where it is there: its types stand in place of the classes of nodes, with all that is written here in Python."""
from __future__ import annotations

from typing import Any, TypeVar

try:
    from .. import _engine as engine_module
except ImportError:
    engine_module = None  # type: ignore[assignment]

__all__ = ["engine_module", "native"]

_Class = TypeVar("_Class", bound="type[Any]")
_NOT_SET = ("__dict__", "__weakref__", "__slots__")


def native(written: _Class) -> _Class:
    """Give the extension's type of the same name, with what a class has that is not there in C; without the extension the class itself."""
    if engine_module is None:
        return written
    made: Any = getattr(engine_module, written.__name__)
    in_c = set(vars(made)) - {"__doc__", "__module__"}
    for base in reversed(written.__mro__[:-1]):
        if base.__module__ != engine_module.__name__ and getattr(engine_module, base.__name__, None) is not base:
            for name, value in vars(base).items():
                if name not in in_c and name not in _NOT_SET:
                    setattr(made, name, value)
    return made
