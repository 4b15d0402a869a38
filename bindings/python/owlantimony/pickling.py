"""What stands for a part of an open session, and is therefore not pickled."""
from __future__ import annotations

from typing import NoReturn

__all__ = ["NotPickled"]


class NotPickled:
    """A part of an open session: pickling refuses it in words."""

    __slots__ = ()

    def __reduce_ex__(self, protocol: object) -> NoReturn:
        """Raise TypeError."""
        raise TypeError(f"{type(self).__name__} is not pickled, as it is a part of an open session: owlantimony.html.serialize writes a tree as a text")
