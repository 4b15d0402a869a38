"""Opens documents over the stand-in: nodes and events by its calls, and all else by lines that are read and run by calls (../../standin/lines.py)."""
import ctypes
import os
import sys

HERE = os.path.dirname(os.path.abspath(__file__))
sys.path[:0] = [os.path.join(HERE, "../../standin"), HERE]
import lines  # noqa: E402
import live  # noqa: E402
from abi import Document  # noqa: E402

LIBRARY = ctypes.CDLL(os.path.join(HERE, "../../out/standin/libstandin.so"))


class Cold(lines.Script):
    """Lines of the document that stands at an address. It has no turns."""

    def __init__(self, address):
        self.library, self.is_live = LIBRARY, True
        self.document, self.owners, self.turn, self.said = Document.from_address(address), ["p"], None, []
        self.under_way, self.place = [], 0

    def line(self, text):
        """Run a line, and give the lines that answer it."""
        return list(super().line(text.encode("ascii")))


live.install(Cold)
