"""Pages of HTML read by html5-parser, which is written in C, if it makes the tree that html5lib makes.

html5-parser (Debian's python3-html5-parser) and html5lib read some constructs differently: what the Standard changed after one of them was
written, and errors in each. A page that may have such a construct is left to html5lib. What is here was found by html5lib's own cases, and by random
pages that both read.
"""
from __future__ import annotations

import re
from collections.abc import Iterator, Mapping
from typing import Any, NamedTuple

from html5lib._inputstream import HTMLBinaryInputStream
from html5lib.constants import voidElements

try:
    import html5_parser
    from lxml.etree import iterwalk
except (ImportError, RuntimeError):  # the second, if it stands over another libxml2 than lxml
    html5_parser = None

__all__ = ["Part", "parts_of_page", "readable"]

_NAMES = (
    "a abbr acronym address applet area article aside audio b base bdi bdo big blockquote body br button canvas caption center cite code col"
    " colgroup data dd del details dfn dir div dl dt em embed fieldset figcaption figure font footer form h1 h2 h3 h4 h5 h6 head header hgroup"
    " hr html i iframe img input ins kbd label legend li link main map mark marquee meta meter nav nobr object ol optgroup option output p param"
    " pre progress q s samp script section select small source span strike strong style sub summary sup table tbody td textarea tfoot th thead"
    " time title tr track tt u ul var video wbr"
)
_ORDINARY_TO_HTML5LIB = re.compile(r"<(?:figcaption|hgroup|main|summary)\b", re.IGNORECASE)
"""What is special in the Standard and not to html5lib, which matters where elements cross."""
_TAG = re.compile(
    r"""<!--.*?-->|<(script|style|title|textarea|iframe)\b.*?</\1\s*>|<(/?)([a-z][^\s/>]*)[^>"']*(?:"[^"]*"[^>"']*|'[^']*'[^>"']*)*>""",
    re.IGNORECASE | re.DOTALL,
)
_IN_TABLES = "caption|colgroup|col|thead|tbody|tfoot|tr|td|th|table"
_READ_DIFFERENTLY = re.compile(
    rf"""</?(?!(?:{"|".join(_NAMES.split())})[\s/>])[a-z]      # another element: unknown to one of them, or changed in the Standard
    | <[a-z][^>]*(?:<|\bxmlns)                                # a tag with another one in it, or with a namespace
    | (?:[^>]|</[^>]*>)</form                                 # a form that ends with a text or an element
    | <(?:pre|listing)\b[^>]*>(?:\n\n|<)                      # a text that may lose a line feed
    | (?:<(?:table|thead|tbody|tfoot|tr|colgroup|col)\b[^>]*>|</(?:caption|colgroup|thead|tbody|tfoot|tr|td|th)\s*>)
      (?:\s|<!--(?:(?!-->).)*-->)*(?!\s|<!--|</?(?:{_IN_TABLES})\b)   # what is moved out of a table
    | [\0-\x08\x0b-\x1f\x7f-\x9f\ud800-\udfff\ufdd0-\ufdef\ufeff\ufffe\uffff]""",
    re.IGNORECASE | re.VERBOSE | re.DOTALL,
)
_DOCTYPE = re.compile(r"""\s*<!doctype\s+[a-z]+(?:\s+public\s+"[^"]+"(?:\s+"[^"]+")?|\s+system\s+"[^"]+")?\s*>""", re.IGNORECASE)
_ANY_DOCTYPE = re.compile("<!doctype", re.IGNORECASE)


class Part(NamedTuple):
    """The beginning of an element with its attributes, a Text, a Comment, or a doctype with its identifiers."""

    kind: str
    value: str
    attributes: Mapping[str, str] = {}


def readable(page: str | bytes) -> str | None:
    """Give a page as a text if html5-parser is installed, and reads the page as html5lib does; else None."""
    text = None if html5_parser is None else page if isinstance(page, str) else _decoded(page)
    if text is None or _READ_DIFFERENTLY.search(text) or _ORDINARY_TO_HTML5LIB.search(text) and not _is_nested(text):
        return None
    return text if len(_ANY_DOCTYPE.findall(text)) == (_DOCTYPE.match(text) is not None) else None


def _is_nested(text: str) -> bool:
    """Give whether each element has its end tag, but for void ones, and no two cross."""
    above: list[str] = []
    for match in _TAG.finditer(text):
        name = (match[3] or "").lower()
        if match[2]:
            if not above or above.pop() != name:
                return False
        elif name and name not in voidElements:
            above.append(name)
    return not above


def _decoded(page: bytes) -> str | None:
    """Give the text of a page in the encoding that html5lib finds, or None if it may find another one later."""
    lower = page.lower()
    at = lower.find(b"charset")
    if at > 900 or at >= 0 and lower.find(b"charset", at + 1) >= 0:
        return None
    try:
        text: str = HTMLBinaryInputStream(page).charEncoding[0].codec_info.decode(page, "strict")[0]
    except UnicodeError:
        return None
    return text


def parts_of_page(text: str) -> Iterator[Part | None]:
    """Give what a page is made of in tree order: the beginnings of nodes, and None for the end of an element."""
    tree = html5_parser.parse(text, treebuilder="lxml", sanitize_names=False, return_root=False)
    root, doctype = tree.getroot(), tree.docinfo.internalDTD
    if doctype is not None:
        yield Part("doctype", doctype.name, {"publicId": doctype.external_id, "systemId": doctype.system_url})
    for comment in reversed([*root.itersiblings(preceding=True)]):
        yield Part("comment", comment.text or "")
    yield from _parts_of_element(root)
    for comment in root.itersiblings():
        yield Part("comment", comment.text or "")


def _parts_of_element(root: Any) -> Iterator[Part | None]:
    """Give what an element of lxml is made of."""
    for event, node in iterwalk(root, events=("start", "end", "comment")):
        if event == "start":
            yield Part("element", node.tag, node.attrib)
            if node.text:
                yield Part("text", node.text)
            continue
        yield Part("comment", node.text or "") if event == "comment" else None
        if node.tail and node is not root:
            yield Part("text", node.tail)
