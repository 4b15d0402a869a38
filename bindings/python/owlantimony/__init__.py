"""Owlantimony: a document engine whose closed shadow trees are proved closed.

`owlantimony.dom` has documents as Python's own `xml.dom` has them:

    from owlantimony.dom import Document

    with Document() as document:
        div = document.createElement("div")
        document.appendChild(div)
        div.append("some text")
        assert document.querySelector("div").textContent == "some text"

`owlantimony.html` reads and writes HTML, by html5lib. `Session` runs single lines of the line protocol below all of this:

    with Session() as session:
        session.line("p new element div")       # ["p ok n1"]

Offsets and lengths of the DOM count 16-bit code units: `units(text)` gives how many a string has.

A session, with every document, node and component over it, is used by the thread that made it alone.
"""
from .session import ClosedError, NoOwnerError, OutOfMemoryError, Session, WrongThreadError
from .strings import quote, units, unquote

__version__ = "0.1.0"
__all__ = ["ClosedError", "NoOwnerError", "OutOfMemoryError", "Session", "WrongThreadError", "quote", "units", "unquote"]
