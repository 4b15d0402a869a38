#!/usr/bin/env python3
"""A test harness: the same calls on a peer, Python's own minidom, and on the engine, with both answers side by side.

Usage: harness.py        (the exit status is 0 where they differ in the cases alone that are known to differ)
"""
import sys
from collections.abc import Callable
from typing import Any
from xml.dom import minidom

from owlantimony.dom import Document

CASES: dict[str, Callable[[Any, Any], Any]] = {
    "append moves a child to the end": lambda document, ul: ul.appendChild(ul.firstChild),
    "insert before a child": lambda document, ul: ul.insertBefore(document.createElement("b"), ul.lastChild),
    "insert before what is no child": lambda document, ul: ul.insertBefore(document.createElement("b"), ul),
    "insert a child before what is no child": lambda document, ul: ul.insertBefore(ul.firstChild, ul),
    "append the document": lambda document, ul: ul.appendChild(document),
    "a second element in the document": lambda document, ul: document.appendChild(document.createElement("b")),
    "insert data in front of the end": lambda document, ul: ul.firstChild.firstChild.insertData(2, "!"),
    "insert data at the end": lambda document, ul: ul.firstChild.firstChild.insertData(3, "!"),
    "normalize joins what split cut": lambda document, ul: (ul.firstChild.firstChild.splitText(1), ul.normalize()),
    "an attribute that is not there": lambda document, ul: ul.getAttribute("id"),
}
KNOWN = {"insert a child before what is no child", "insert data at the end", "an attribute that is not there"}


def text(node: Any) -> str:
    """Give a tree as a short text."""
    return node.data if node.nodeType == node.TEXT_NODE else f"{node.nodeName}({','.join(map(text, node.childNodes))})"


def answer(document: Any, call: Callable[[Any, Any], Any]) -> str:
    """Build a list of two items in a document, make a call, and give what came of it and the tree that is left."""
    ul = document.appendChild(document.createElement("ul"))
    for word in ("one", "two"):
        ul.appendChild(document.createElement("li")).appendChild(document.createTextNode(word))
    try:
        given = call(document, ul)
    except Exception as fault:
        given = type(fault).__name__
    return f"{given if given is None or isinstance(given, str) else 'done'} {text(document)}"


if __name__ == "__main__":
    differing = set()
    for name, case in CASES.items():
        with Document() as ours:
            peer, engine = answer(minidom.Document(), case), answer(ours, case)
        print("same   " if peer == engine else "differs", name)
        if peer != engine:
            differing.add(name)
            print(f"          peer:   {peer}\n          engine: {engine}")
    sys.exit(differing != KNOWN)
