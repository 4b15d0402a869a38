"""The sentences of a page: how many words each may have, and which of its pronouns have no noun; and how long documents may be."""
import os
import re
import sys
from collections.abc import Iterator

WORDS = 30
# The README's most lines, and the most letters of one; and the most words of documents that tend to grow.
README = ("README.md", 120, 110)
LENGTHS = {"docs/ARCHITECTURE.md": 2200, "docs/DECISIONS.md": 4800, "docs/GATE.md": 2000, "docs/PERFORMANCE.md": 3600}
# The pages whose sentences are counted.
PLAIN = ("README.md", "CONTRIBUTING.md", "SECURITY.md", "CHANGELOG.md", "bindings/README.md", "examples/README.md", "harness/README.md",
         *(f"docs/{name}.md" for name in ("ADDING-A-COMMAND", "ARCHITECTURE", "BROWSERS", "CRATES", "DECISIONS", "FROM-JAVASCRIPT",
                                          "FROM-PYTHON", "GATE", "GLOSSARY", "ISOLATION", "LOOK", "MOUNTING", "PERFORMANCE", "PROTOCOL",
                                          "PROVED", "TUTORIAL", "WRONG-DEFINITIONS")))
CODE = re.compile(r"^```.*?^```|^ {4,}\S.*?$(?=\n\n|\n {4}|\Z)", re.MULTILINE | re.DOTALL)
LINK = re.compile(r"\]\([^)]*\)")
ITEM = re.compile(r"\n(?=\s*[-*] |\s*\d+\. |#|\|)")
# Pronouns whose noun a reader has to look for: *of which*, *those of*, and a sentence that begins with *This is* or *So is*.
BARE = re.compile(r"\bof (?:which|whom)\b|\bthose (?:that|of|with|in|by|on|from|to|at)\b|\bthose(?=[.,;:)])|\bthe (?:latter|former)\b"
                  r"|^(?:- )?(?:This|That|These|Those) (?:is|are|was|were|says?|has|have|holds?|means?|gives?|takes?|makes?|needs?)\b"
                  r"|^(?:- )?So (?:too|are|is|does|do|it is (?:of|with|if|before|after|too))\b")
END = re.compile(r"(?<=[.!?;])[)'\"]*\s+(?=[A-Z`(\[0-9'])")


def paragraphs(text: str) -> Iterator[str]:
    """The paragraphs, items and cells of a page, without code. A cell that begins with a link to a contract has links alone."""
    for block in re.split(r"\n\s*\n", CODE.sub("", text)):
        for item in ITEM.split(block):
            cells = item.split("|") if item.lstrip().startswith("|") else [item]
            yield from (cell for cell in cells if len(cells) == 1 or not cell.lstrip().startswith("[`"))


def sentences(text: str) -> Iterator[str]:
    """The sentences of a page. A semicolon ends one too, and a colon does not."""
    for paragraph in paragraphs(text):
        plain = LINK.sub("]", paragraph).replace("**", "").replace("*", "")
        yield from END.split(" ".join(plain.split()))


def bare_pronouns(sentence: str) -> list[str]:
    """The pronouns of a sentence that point at a noun of another one."""
    return [found[0] for found in BARE.finditer(sentence)]


def lengths_of(path: str, text: str) -> Iterator[str]:
    """What of a page is longer than it may be as a whole, and which lines of the README are."""
    page, most_lines, most_letters = README
    lines = text.splitlines()
    if path == page and len(lines) > most_lines:
        yield f"{path}: {len(lines)} lines"
    long = [number for number, line in enumerate(lines, 1) if len(line) > most_letters]
    yield from (f"{path}:{number}: {len(lines[number - 1])} characters" for number in long if path == page)
    if len(text.split()) > LENGTHS.get(path, sys.maxsize):
        yield f"{path}: {len(text.split())} words"


def faults_of(root: str, path: str) -> Iterator[str]:
    """What of a page is longer than it may be, and which pronouns point at no noun."""
    with open(os.path.join(root, path), encoding="utf-8") as file:
        text = file.read()
    yield from lengths_of(path, text)
    for sentence in sentences(text) if path in PLAIN else ():
        count = len(sentence.split())
        if count > WORDS:
            yield f"{path}: a sentence of {count} words: {sentence[:60]} .."
        yield from (f"{path}: '{found}' without a noun: {sentence[:60]} .." for found in bare_pronouns(sentence))
