#!/usr/bin/env python3
"""A document tool: moves the headings of a page into a list in front of it, and writes the page with its marks.

A mark is a live range. It follows every change by itself; only one inside what is moved is set again, since what leaves a tree leaves its
ranges behind.

Usage: document_tool.py WORD .. < PAGE       (each WORD is marked where it stands first)
"""
import sys
from collections.abc import Iterator

from owlantimony import html, units
from owlantimony.dom import Document, Element, NodeFilter, Range


def mark(document: Document, word: str) -> Range:
    """Give a range around the first place where a word stands."""
    for text in document.createNodeIterator(document.querySelector("body"), NodeFilter.SHOW_TEXT):
        at = text.data.find(word)
        if at >= 0:
            made = document.createRange()
            start = units(text.data[:at])
            made.setStart(text, start)
            made.setEnd(text, start + units(word))
            return made
    raise SystemExit(f"document_tool: the page has no {word!r}")


def move(heading: Element, place: Element, marks: list[Range]) -> None:
    """Move a heading to the end of a place, with the marks inside it."""
    inside = [made for made in marks if heading.contains(made.startContainer) and heading.contains(made.endContainer)]
    ends = [(made.startContainer, made.startOffset, made.endContainer, made.endOffset) for made in inside]
    place.append(heading)
    for made, (start, first, end, last) in zip(inside, ends):
        made.setStart(start, first)
        made.setEnd(end, last)


def outlined(document: Document, words: list[str]) -> Iterator[str]:
    """Move all headings, and say where the marks are then."""
    marks = [mark(document, word) for word in words]
    contents = document.createElement("nav")
    for heading in document.querySelectorAll("h1, h2, h3"):
        move(heading, contents, marks)
    document.querySelector("body").prepend(contents)
    for made in marks:
        yield f"{made} in {made.startContainer.parentNode.tagName}"
        made.surroundContents(document.createElement("mark"))


if __name__ == "__main__":
    with html.parse(sys.stdin.read()) as page:
        for line in outlined(page, sys.argv[1:]):
            print(line, file=sys.stderr)
        print(html.serialize(page))
