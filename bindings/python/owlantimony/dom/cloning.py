"""Clones, built of the commands that make nodes."""
from __future__ import annotations

from collections.abc import Iterable
from typing import Any
from xml.dom import NotSupportedErr

from .node import Node
from .owner import Owner
from .treetext import Token, tokens

__all__ = ["clone", "clone_with_data"]


def clone(node: Node, deep: bool) -> Any:
    """Clone a node, alone or with all below it (DOM Standard, #concept-node-clone), and what is carried beside it."""
    if node.nodeName == "#shadow-root":
        raise NotSupportedErr(f"not-supported: {node!r} is a shadow root")
    parts = tokens(node._owner.ask(f"tree {node._name}")) if deep else _parts_of_one(node)
    return _with_document_of(node, _built(node._owner, parts))


def clone_with_data(node: Any, data: str) -> Any:
    """Clone a Text or Comment, with other data."""
    return _with_document_of(node, node._owner.make_data(node.nodeName[1:], data))


def _with_document_of(node: Any, copy: Any) -> Any:
    """Give a clone the node document of what it is cloned from."""
    if node._owner.has_documents and node.ownerDocument is not None and node.ownerDocument != copy.ownerDocument:
        node.ownerDocument.adoptNode(copy)
    return copy


def _parts_of_one(node: Any) -> list[Token]:
    """Give the parts that the text of a tree of this node alone would have."""
    if node.nodeType in (Node.TEXT_NODE, Node.COMMENT_NODE):
        return list(tokens(node._owner.ask(f"tree {node._name}")))
    parts = [Token("open", node._name, node.nodeName)]
    if node.nodeType == Node.ELEMENT_NODE:
        parts += [Token("attribute", name, value=value) for name, value in node.attributes.items()]
    return [*parts, Token("close")]


def _built(owner: Owner, parts: Iterable[Token]) -> Any:
    """Make the nodes that the parts of a tree's text say, each below the one in which it stands there."""
    above: list[Any] = []
    for token in parts:
        if token.what == "open":
            above.append(_made(owner, token))
            if token.name in owner.beside:
                owner.beside[above[-1]._name] = owner.beside[token.name].copy()
        elif token.what == "attribute":
            owner.set_attribute(above[-1]._name, token.name, token.value)
        else:
            node = above.pop()
            if not above:
                return node
            above[-1].appendChild(node)
    raise ValueError("the text of a tree ends too early")


def _made(owner: Owner, token: Token) -> Any:
    """Make one node as a part says."""
    if token.node_name in ("#text", "#comment"):
        return owner.make_data(token.node_name[1:], token.value)
    if token.node_name == "#document":
        return owner.make_document()
    if token.node_name == "#document-fragment":
        return owner.make("new fragment", "#document-fragment")
    return owner.make_element(token.node_name)
