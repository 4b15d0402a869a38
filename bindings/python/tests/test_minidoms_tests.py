"""minidom's own tests, of Python's testsuite, over documents here. Those that can't pass stand below with the reason, and all others have to pass.

`parse` and `parseString` are minidom's, and what they give is copied into a document here, as far as it can have it: doctypes, processing
instructions and declarations of namespaces are left out, and a CDATA section is a Text. `toxml` and its like are minidom's too, on a copy of the
tree, and `unlink` does nothing: these are not the DOM's. Skipped where the testsuite is not there.
"""
import contextlib
import importlib.util
import os
import types
import unittest
import xml.dom
from unittest import mock
from xml.dom import minidom

import owlantimony.dom
from owlantimony.dom import Document, Node, getDOMImplementation

DEBIAN = "/usr/lib/python3.11/test/test_minidom.py"
CAN_NOT_PASS = {
    "no element or attribute has a namespace": "testElementReprAndStrUnicodeNS testGetAttribute testGetAttributeNS testGetElementsByTagNameNS"
    " testGetEmptyNodeListFromElementsByTagNameNS testRemoveAttrNS testRemoveNamedItemNS testSetIdAttributeNS testSetIdAttributeNode",
    "there are no doctypes, entities, processing instructions and CDATA sections": "testCloneDocumentTypeDeepNotOk testCloneDocumentTypeDeepOk"
    " testCloneDocumentTypeShallowNotOk testCloneDocumentTypeShallowOk testCloneNodeEntity testClonePIDeep testClonePIShallow"
    " testImportDocumentTypeDeep testImportDocumentTypeShallow testProcessingInstruction testProcessingInstructionNameError testReplaceWholeText"
    " testSiblings testWholeText test_toprettyxml_with_cdata",
    "an attribute is made by a document, and is no node that one clones, sets and removes": "testAttrModeSetsNonOptionalAttrs"
    " testAttrModeSetsParamsAsAttrs testCloneAttributeDeep testCloneAttributeShallow testLegalChildren testRemoveAttributeNode"
    " testRemoveNamedItem testSetAttributeNodeWithoutOwnerDocument",
    "the DOM Standard has none of it: renameNode, isId, user data, schema types, async": "testChangeAttr testDocumentAsyncAttr"
    " testRenameAttribute testRenameElement testRenameOther testSchemaType testSetIdAttribute testUserData",
    "the DOM Standard has it otherwise: a clone of a document, an attribute that is not there, names that one can't set":
    "testCloneDocumentShallow testCloneElementDeep testCloneElementShallow testRemoveAttr",
    "a node is not pickled": "testPickledDocument",
    "a document is closed, and not taken apart": "testContext testUnlink",
    "it measures time": "testAppendChildNoQuadraticComplexity",
}
REASONS = {name: reason for reason, names in CAN_NOT_PASS.items() for name in names.split()}
FEWEST = 60
"""How many tests have to pass: 131 there are in Python 3.11, some 40 of them empty."""


def path_of_tests():
    """Give where minidom's tests stand: beside this Python's library, or where Debian has them; None where they are not there."""
    with contextlib.suppress(ImportError, ValueError):
        found = importlib.util.find_spec("test.test_minidom")
        if found is not None and found.origin is not None:
            return found.origin
    return DEBIAN if os.path.exists(DEBIAN) else None


PATH = path_of_tests()


def copied(node, document):
    """Give a copy of a node of minidom in a document, or None for what no document here can have."""
    if node.nodeType in (Node.TEXT_NODE, Node.CDATA_SECTION_NODE):
        return document.createTextNode(node.data)
    if node.nodeType == Node.COMMENT_NODE:
        return document.createComment(node.data)
    if node.nodeType != Node.ELEMENT_NODE:
        return None
    element = document.createElementNS(node.namespaceURI, node.tagName)
    for name, value in node.attributes.items():
        if not name.startswith("xmlns"):
            element.setAttribute(name, value)
    return with_children(element, node, document)


def with_children(made, node, document):
    """Give a node with copies of the children of another."""
    for child in map(lambda child: copied(child, document), node.childNodes):
        if child is not None:
            made.appendChild(child)
    return made


def as_minidom(node):
    """Give a copy of a node of ours in minidom."""
    peer = minidom.Document()
    if node.nodeType == Node.DOCUMENT_NODE:
        return with_children(peer, node, peer)
    return copied(node, peer)


def load():
    """Give minidom's tests as a module of its own."""
    spec = importlib.util.spec_from_file_location("minidoms_tests", PATH)
    module = importlib.util.module_from_spec(spec)
    spec.loader.exec_module(module)
    return module


def read(tree):
    """Give a document of ours with the tree of one of minidom."""
    document = Document()
    return with_children(document, tree, document)


def load_over_ours():
    """Give minidom's tests as a module whose documents are ours."""
    module = load()
    ours = {name: getattr(owlantimony.dom, name) for name in ("Attr", "Document", "Element", "Node", "getDOMImplementation")}
    ours.update(parse=lambda file: read(minidom.parse(file)), parseString=lambda text: read(minidom.parseString(text)))
    in_place = types.SimpleNamespace(**{**vars(minidom), **ours})
    module.__dict__.update(ours, xml=types.SimpleNamespace(dom=types.SimpleNamespace(**{**vars(xml.dom), "minidom": in_place})))
    return module


def outcomes(case):
    """Run the tests of a class but for those that measure time, and give what each failed at, or "", by its name."""
    told = {}
    for name in unittest.defaultTestLoader.getTestCaseNames(case):
        if REASONS.get(name) != "it measures time":
            result = unittest.TestResult()
            case(name).run(result)
            told[name] = "\n".join(text for _, text in result.failures + result.errors)
    return told


@contextlib.contextmanager
def what_is_not_the_doms():
    """Give nodes `toxml`, `toprettyxml` and `writexml`, as minidom writes a copy of the tree, and an `unlink` that does nothing."""
    with contextlib.ExitStack() as stack:
        for name in ("toxml", "toprettyxml", "writexml"):
            call = lambda self, *words, _name=name, **named: getattr(as_minidom(self), _name)(*words, **named)  # noqa: E731
            stack.enter_context(mock.patch.object(Node, name, call, create=True))
        stack.enter_context(mock.patch.object(Node, "unlink", lambda self: None, create=True))
        yield


@unittest.skipIf(PATH is None, "Python's testsuite is not there")
class MinidomsTests(unittest.TestCase):
    def test_all_pass_over_minidom(self):
        self.assertEqual({name: fault for name, fault in outcomes(load().MinidomTest).items() if fault}, {})

    def test_all_but_those_with_a_reason_pass_here(self):
        with what_is_not_the_doms():
            told = outcomes(load_over_ours().MinidomTest)
        for name, fault in told.items():
            with self.subTest(name):
                if name in REASONS:
                    self.assertNotEqual(fault, "", f"it passes, and stands among those that can't: {REASONS[name]}")
                else:
                    self.assertEqual(fault, "")
        self.assertGreater(sum(not fault for fault in told.values()), FEWEST)


if __name__ == "__main__":
    unittest.main()
