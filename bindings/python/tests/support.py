"""What the tests share: trees as plain values, for any implementation of `xml.dom`."""
import unittest

from owlantimony.dom import Document, Node


def shape(node):
    """Give a tree as nested tuples: the node name, the sorted attributes, the data, and the children's shapes."""
    attributes = sorted(node.attributes.items()) if node.nodeType == Node.ELEMENT_NODE else []
    return (node.nodeName, attributes, node.nodeValue, [shape(child) for child in node.childNodes])


def outline(node):
    """Give a tree as a short text: `ul(li('one'),li())`."""
    if node.nodeType == Node.TEXT_NODE:
        return repr(node.nodeValue)
    if node.nodeType == Node.COMMENT_NODE:
        return f"<!--{node.nodeValue}-->"
    return f"{node.nodeName}({','.join(outline(child) for child in node.childNodes)})"


def build(document, plan):
    """Make what a plan says: a string is a Text, ("!", data) a Comment, and a tuple an element's name and the plans of its children."""
    if isinstance(plan, str):
        return document.createTextNode(plan)
    if plan[0] == "!":
        return document.createComment(plan[1])
    element = document.createElement(plan[0])
    for child in plan[1:]:
        element.appendChild(build(document, child))
    return element


class DocumentTest(unittest.TestCase):
    """A test with a document of its own, and a list `told` for what callbacks are told."""

    def setUp(self):
        self.document = Document()
        self.addCleanup(self.document.close)
        self.told = []

    def build(self, plan):
        return build(self.document, plan)

    def put(self, plan):
        """Build a tree, and put it in the document."""
        return self.document.appendChild(self.build(plan))
