"""Trees as HTML: html5lib's tokens of a tree, and the text that its serializer writes of them with all tags and quotation marks, in less time."""
from __future__ import annotations

import re
from collections.abc import Iterable, Iterator, Mapping
from typing import Any
from xml.sax.saxutils import escape

from html5lib.constants import rcdataElements, voidElements
from html5lib.treewalkers import base as walkers

from .beside import HTML, Beside, qualified
from .dom.owner import Owner
from .dom.treetext import Part, parts_of

__all__ = ["Walker", "written"]

_NOTHING = Beside()
_NOT_IN_A_COMMENT = re.compile(r"^-?>|--!?>|\r")
_LOSE_A_LINE_FEED = ("pre", "textarea", "listing")


def written(tokens: Iterable[dict[str, Any]]) -> str:
    """Give the text of tokens. Raise ValueError for what HTML can't write, as a void element with children."""
    pieces: list[str] = []
    is_raw = False
    for token in tokens:
        kind = token["type"]
        if kind in ("Characters", "SpaceCharacters"):
            pieces.append(token["data"] if is_raw else escape(token["data"]))
        elif kind in ("StartTag", "EmptyTag"):
            if is_raw:
                raise ValueError(f"HTML can't write an element in a script, a style or the like: {token['name']}")
            is_raw = token["name"] in rcdataElements
            pieces += ["<", token["name"], *_attributes(token["data"]), ">"]
        elif kind == "EndTag":
            is_raw = False
            pieces += ["</", token["name"], ">"]
        else:
            pieces.append(_other(kind, token))
    return "".join(pieces)


def _attributes(attributes: Mapping[Any, str]) -> list[str]:
    """Give the attributes of a start tag, each with a space in front."""
    pieces = []
    for (_, name), value in attributes.items():
        value = value.replace("&", "&amp;")
        mark = "'" if '"' in value and "'" not in value else '"'
        pieces += [" ", name, "=", mark, value if mark == "'" else value.replace('"', "&quot;"), mark]
    return pieces


def _other(kind: str, token: Mapping[str, Any]) -> str:
    """Give the text of a comment or a doctype."""
    if kind == "Comment":
        return f"<!--{token['data']}-->"
    if kind == "Doctype":
        return _doctype(token["name"], token["publicId"], token["systemId"])
    raise ValueError(f"HTML can't write this tree: {token['data']}")


def _doctype(name: str, public_id: str | None, system_id: str | None) -> str:
    word = f' PUBLIC "{public_id}"' if public_id else " SYSTEM" if system_id else ""
    if not system_id:
        return f"<!DOCTYPE {name}{word}>"
    if '"' in system_id and "'" in system_id:
        raise ValueError(f"HTML can't write a system identifier with both quotation marks: {system_id!r}")
    mark = "'" if '"' in system_id else '"'
    return f"<!DOCTYPE {name}{word} {mark}{system_id}{mark}>"


class Walker(walkers.TreeWalker):
    """Gives the tokens of a tree, as html5lib's walkers do. The tree is read once, as a text."""

    def __iter__(self) -> Iterator[dict[str, Any]]:
        self._owner: Owner = self.tree._owner
        self._doctype = self._beside(self.tree._name).doctype
        parts = list(parts_of(self._owner.ask(f"tree {self.tree._name}")))
        above: list[Part] = []
        children = 0
        for part, following in zip(parts, [*parts[1:], parts[-1]]):
            if len(above) == 1:
                yield from self._doctype_before(None if part.what == "end" else children)
                children += 1
            if part.what == "end":
                yield from self._end(above.pop())
            else:
                yield from self._begin(part, following, above[-1] if above else None)
                above.append(part)

    def _beside(self, name: str) -> Beside:
        return self._owner.beside.get(name) or _NOTHING

    def text(self, data: str) -> Iterator[dict[str, Any]]:
        """Give a Text as one token."""
        yield {"type": "Characters", "data": data}

    def _doctype_before(self, index: int | None) -> Iterator[dict[str, Any]]:
        """Give the doctype, once, where it stands before this child of the document or, for None, at the end."""
        doctype = self._doctype
        if doctype and (index is None or index == doctype.position):
            self._doctype = None
            yield self.doctype(doctype.name, doctype.publicId, doctype.systemId)

    def _begin(self, part: Part, following: Part, parent: Part | None) -> Iterator[dict[str, Any]]:
        """Give what stands for the beginning of a node."""
        self._check(part, parent)
        if part.node_name == "#text":
            yield from self.text(part.value)
        elif part.node_name == "#comment":
            yield self.comment(part.value)
        elif not part.node_name.startswith("#"):
            name, namespace = self._name(part)
            beside = self._beside(part.name)
            attributes = {(None, qualified(key)): value for key, value in beside.attributes.items()} if beside.attributes else {}
            for key, value in part.attributes.items():
                attributes[None, key] = value
            has_children = following.what == "begin"
            if namespace == HTML and name in voidElements:
                yield from self.emptyTag(namespace, name, attributes, has_children)
                return
            yield self.startTag(namespace, name, attributes)
            if name in _LOSE_A_LINE_FEED and following.node_name == "#text" and following.value.startswith("\n"):
                yield from self.text("\n")

    def _check(self, part: Part, parent: Part | None) -> None:
        """Raise ValueError for what a parser would not read as it is written."""
        is_wrong = "\x00" in part.value or any("\x00" in value for value in part.attributes.values())
        if part.node_name == "#comment":
            is_wrong = is_wrong or bool(_NOT_IN_A_COMMENT.search(part.value))
        elif part.node_name == "plaintext":
            is_wrong = True
        elif part.node_name == "#text" and parent and self._name(parent)[0] in rcdataElements:
            name, namespace = self._name(parent)
            signs = [f"</{name}", "\r"] if namespace == HTML else ["<", "&", "\r"]
            is_wrong = is_wrong or any(sign in part.value.lower() for sign in signs)
        if is_wrong:
            raise ValueError(f"HTML can't write this {part.node_name}: {part.value[:80]!r}")

    def _end(self, part: Part) -> Iterator[dict[str, Any]]:
        """Give what stands for the end of a node."""
        name, namespace = self._name(part)
        if not part.node_name.startswith("#") and not (namespace == HTML and name in voidElements):
            yield self.endTag(namespace, name)

    def _name(self, part: Part) -> tuple[str, str]:
        """Give the name and the namespace of an element."""
        beside = self._beside(part.name)
        return beside.name or part.node_name, beside.namespace
