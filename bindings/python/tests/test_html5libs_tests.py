"""html5lib's own cases of Debian's librust-markup5ever-rcdom-dev: `owlantimony.html` makes of them the trees, and the text, that html5lib makes with minidom.

A case for a browser without scripts is left out, since a page is read as with scripts; so is a part of a page in an element of SVG or MathML,
for which `parse_fragment` has no word. Skipped where the package or html5lib is not there.
"""
import glob
import json
import os
import re
import unittest
from unittest import mock

from owlantimony.dom import Document
from test_html import html, html5lib, joined, theirs, without_added_line_feeds

if html is not None:
    from owlantimony import markup

FOLDERS = glob.glob("/usr/share/cargo/registry/markup5ever_rcdom-*/html5lib-tests")
FIELD = re.compile(r"#(data|errors|new-errors|document|document-fragment|script-off|script-on)")
IS_MISSING = html is None or not FOLDERS
WHY = "html5lib, or the package with its cases, is not there"


def tree_cases():
    """Give the cases of trees, each as a name and its fields."""
    for path in sorted(glob.glob(os.path.join(FOLDERS[0], "tree-construction", "*.dat"))):
        with open(path, encoding="utf-8", newline="") as file:
            parts = re.split(r"(?:^|\n)#data\n", file.read())[1:]
        for number, part in enumerate(parts, 1):
            yield f"{os.path.basename(path)} {number}", fields_of(part)


def fields_of(part):
    """Give the fields of a case by their names."""
    fields, lines = {}, []
    fields["data"] = lines
    for line in part.split("\n"):
        if FIELD.fullmatch(line):
            lines = fields[line[1:]] = []
        else:
            lines.append(line)
    return {name: "\n".join(lines) for name, lines in fields.items()}


def their_part(text, container):
    """Give html5lib's own tree of a part of a page, in minidom, as the tokens of its walker."""
    tree = html5lib.HTMLParser(tree=html5lib.getTreeBuilder("dom")).parseFragment(text, container=container, scripting=True)
    tree.normalize()
    return joined(html5lib.getTreeWalker("dom")(tree))


@unittest.skipIf(IS_MISSING, WHY)
class Trees(unittest.TestCase):
    def tokens(self, node):
        """Give a tree of ours as tokens, also where HTML can't write it."""
        with mock.patch.object(markup.Walker, "_check"):
            return without_added_line_feeds(joined(markup.Walker(node)))

    def test_pages_and_parts_of_pages(self):
        pages = parts = 0
        for name, fields in tree_cases():
            if "script-off" in fields or " " in fields.get("document-fragment", ""):
                continue
            with self.subTest(name), Document() as document:
                container = fields.get("document-fragment", "").strip()
                if container:
                    tree, expected = html.parse_fragment(fields["data"], document, container), their_part(fields["data"], container)
                    parts += 1
                else:
                    tree, expected = html.parse(fields["data"], document), theirs(fields["data"])
                    pages += 1
                self.assertEqual(self.tokens(tree), expected)
        self.assertGreater(pages, 1400)
        self.assertGreater(parts, 90)


class Builder:
    """Builds the tree of a case's tokens, by html5lib's interface for builders of trees."""

    def __init__(self, builder):
        self.builder = builder
        self.above = [builder.fragmentClass()]

    def take(self, kind, *words):
        """Take a token."""
        if kind == "Characters":
            self.above[-1].insertText(words[0])
        elif kind == "Comment":
            self.above[-1].appendChild(self.builder.commentClass(words[0]))
        elif kind == "EndTag":
            self.end(words[1])
        else:
            namespace, name, attributes = words if kind == "StartTag" else ("http://www.w3.org/1999/xhtml", *words)
            element = self.builder.elementClass(name, namespace)
            element.attributes = {key["name"]: key["value"] for key in attributes or ()}
            self.above[-1].appendChild(element)
            self.above += [element] * (kind == "StartTag")

    def end(self, name):
        """End the element of this name, if it is the last that was begun."""
        if len(self.above) > 1 and self.above[-1].name == name:
            self.above.pop()


def text_cases():
    """Give the cases of the serializer, each as a name and its tokens."""
    for path in sorted(glob.glob(os.path.join(FOLDERS[0], "serializer", "*.test"))):
        with open(path, encoding="utf-8") as file:
            for case in json.load(file)["tests"]:
                yield f"{os.path.basename(path)} {case['description']}", case["input"]


@unittest.skipIf(IS_MISSING, WHY)
class Texts(unittest.TestCase):
    def tree(self, builder, tokens):
        """Give the tree of the tokens: a document if they are a doctype, and else a fragment."""
        if tokens[0][0] == "Doctype":
            builder.insertDoctype(dict(zip(("name", "publicId", "systemId"), [*tokens[0][1:], None, None])))
            return builder.getDocument()
        made = Builder(builder)
        for token in tokens:
            made.take(*token)
        return made.above[0].element

    def their_text(self, tokens):
        """Give what html5lib writes of minidom's tree of the tokens, with the options of `html.serialize`, and a carriage return as that has it."""
        writer = html5lib.serializer.HTMLSerializer(omit_optional_tags=False, quote_attr_values="always", minimize_boolean_attributes=False)
        tree = self.tree(html5lib.getTreeBuilder("dom")(True), tokens)
        return writer.render(html5lib.getTreeWalker("dom")(tree)).replace("\r", "&#13;")

    def test_what_is_written(self):
        """A carriage return in a script or a style, where no character can be written by its number, is refused."""
        tried = 0
        for name, tokens in text_cases():
            with self.subTest(name), Document() as document:
                tree, expected = self.tree(html._Builder(document), tokens), self.their_text(tokens)
                if re.search("<(script|style)>[^<]*&#13;", expected):
                    self.assertRaises(ValueError, html.serialize, tree)
                else:
                    self.assertEqual(html.serialize(tree), expected)
                tried += 1
        self.assertEqual(tried, 230)


if __name__ == "__main__":
    unittest.main()
