"""The public definitions of crates/*/specs, and the references to the DOM Standard in the comments of the sources.

A reference is 'DOM Standard, ' and then one of these, up to the closing bracket or the end of the comment:
  4.2.3                            a section, alone or with its title after it; several are joined by 'and'
  4.2.3: pre-insert, insert        names of that section
  concept: adopt                   a name that one section alone has; 'concepts:' has several, which are all looked up
  interface Range                  the section of that title; 'dictionary', 'mixin' and 'constructor of' go by the name after them
What stands after a name and a comma, a colon or a semicolon explains it.
"""
import os
import re
from dataclasses import dataclass

ROOT = os.path.normpath(os.path.join(os.path.dirname(os.path.abspath(__file__)), ".."))
DEFINITION = re.compile(r"( *)(?:(?:abbrev|unfoldable|opaque) pub|pub (?:record|data)|pub(?! use| mod)) ([^\s:({]+)")
OTHERS = re.compile(r"own rule|HTML Standard|Infra Standard|Web IDL|Selectors Level 4", re.IGNORECASE)
UNMARKED = re.compile(r"Unmarked: (own rules|DOM Standard, |CSS Selectors)")


@dataclass
class Definition:
    """A public definition: where it stands, its comment, and the heading that says what unmarked ones are."""

    crate: str
    file: str
    name: str
    comment: str
    heading: str

    def is_marked(self):
        return bool(references_in(self.comment) or OTHERS.search(self.comment) or UNMARKED.search(self.heading))


def references_in(comment):
    """The references to the DOM Standard in a comment, each as the text after 'DOM Standard, '."""
    found = []
    for part in re.split(r"DOM Standard, ", comment)[1:]:
        depth = 0
        for place, sign in enumerate(part):
            depth += (sign == "(") - (sign == ")")
            if depth < 0:
                part = part[:place]
                break
        found.append(part.strip().rstrip("."))
    return found


def references_of_file(path):
    """The references in all comments of a file, those of several lines joined."""
    found, block = [], []
    with open(os.path.join(ROOT, path), encoding="utf-8") as file:
        for line in [*file.read().split("\n"), ""]:
            match = re.match(r"\s*(?:--|//[/!]?)\s?(.*)", line)
            if match:
                block.append(match[1].strip())
            else:
                found += references_in(" ".join(block))
                block = []
    return found


def comments_and_lines(path, sign):
    """The lines of a file, each with the comment that stands right above it, and the number of its first line."""
    above = []
    with open(os.path.join(ROOT, path), encoding="utf-8") as file:
        for line in file.read().split("\n"):
            text = line.strip()
            if text.startswith(sign):
                above.append(text[len(sign):].strip())
            else:
                yield " ".join(above), line
                above = above if text.startswith(("infix", "#[")) else []


def definitions_in(crate, name, shared):
    """The public definitions of a file of specs; `shared` is the heading that the files of its crate share."""
    found, heading, record = [], None, None
    for comment, line in comments_and_lines(f"crates/{crate}/specs/{name}.antt", "--"):
        if heading is None:
            heading = comment if UNMARKED.search(comment) else shared
        indent = len(line) - len(line.lstrip())
        record = None if record is not None and line.strip() and indent <= record else record
        match = DEFINITION.match(line)
        if match and record is None:
            found.append(Definition(crate, name, match[2], comment, heading))
            record = indent if " record " in line else None
    return found


def files_below(folder, ending):
    """The files below a folder with an ending, in order, by their paths in the repository."""
    paths = []
    for place, folders, names in os.walk(os.path.join(ROOT, folder)):
        folders.sort()
        paths += [os.path.relpath(os.path.join(place, name), ROOT) for name in sorted(names) if name.endswith(ending)]
    return paths


def crate_lines():
    """The line of each crate in crates.txt, lowest first."""
    with open(os.path.join(ROOT, "crates.txt"), encoding="utf-8") as file:
        lines = [line for line in file if line.strip() and not line.startswith("#")]
    return {line.split(":")[0].split()[0]: line for line in lines}


def crates():
    """The crates, lowest first, as crates.txt has them; the word after a name says what is built of it."""
    return list(crate_lines())


def below():
    """For each crate those that it names, and those that these name."""
    named = {crate: set(line.partition(":")[2].split()) for crate, line in crate_lines().items()}
    found = {}
    while len(found) < len(named):
        for crate in [it for it in named if it not in found]:
            known = named[crate] & named.keys()
            if known <= found.keys():
                found[crate] = known.union(*(found[it] for it in known))
    return found


def all_definitions():
    """Every public definition of crates/*/specs, in the order of the crates."""
    found = []
    for crate in crates():
        paths = files_below(f"crates/{crate}/specs", ".antt")
        shared = next((comment for path in paths if path.endswith("/Lib.antt") for comment, _ in comments_and_lines(path, "--")), "")
        for path in paths:
            found += definitions_in(crate, os.path.basename(path)[:-len(".antt")], shared)
    return found
