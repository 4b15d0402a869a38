"""The public calls of crates/*/src, and the definitions of crates/*/specs that the contract of each leads to.

A contract leads to the definitions that its `ensures` clauses name, and to those that these name in their turn. A definition is known by
its crate, its file and its name, as the `use` lines have it.
"""
import os
import re
from dataclasses import dataclass

import sources

USE = re.compile(r"\s*(?:ghost |pub )?use Rattle\.(\w+)\.specs\.(\w+)(?:\.\{(.*)\}| as (\w+))")
WORD = re.compile(r"(?:(\w+)\.)?([A-Za-z_]\w*)")
CALL = re.compile(r"( *)pub (?:extern \"C\" )?fn (\w+)")
OWNER = re.compile(r"impl(?:<[^>]*>)? (?:.* for )?(\w+)")
CLAUSE = re.compile(r"\s*ensures\*?(?: (\w+))? \{")
HEAD = re.compile(r"(?: *(?:abbrev|unfoldable|opaque) )?(?:pub )?(?:(?:record|data) )?([A-Za-z_]\w*)[ :({]")


@dataclass
class Call:
    """A public call: its crate, its file, its name with its type's or else its crate's in front, the names of its `ensures` clauses, and
    the definitions that these name."""

    crate: str
    path: str
    name: str
    clauses: set
    words: set

    def link(self, folder):
        """A link to the call from a page in a folder of the repository: its file below src/ and its name, to that file."""
        file = self.path.removeprefix(f"crates/{self.crate}/src/")
        return f"[`{file}: {self.name}`]({os.path.relpath(os.path.join(sources.ROOT, self.path), folder)})"


def lines_of(path):
    """The lines of a file of the repository."""
    with open(os.path.join(sources.ROOT, path), encoding="utf-8") as file:
        return file.read().split("\n")


def uses_of(lines):
    """What the names stand for that a file brings in: definitions by their crate, file and name, and files by their crate and name."""
    found = {}
    for match in filter(None, map(USE.match, lines)):
        crate, file, names, alias = match.groups()
        if alias:
            found[alias] = (crate, file)
        for part in (names or "").split(", "):
            name, _, other = part.partition(" as ")
            found[other or name] = (crate, file, name)
    return found


def named_in(text, uses, here):
    """The definitions that a text names, by what its file brings in, or else by `here`, the crate and the file of the text."""
    found = set()
    for front, name in WORD.findall(text):
        if len(uses.get(front, ())) == 2:
            found.add((*uses[front], name))
        elif len(uses.get(name, ())) == 3:
            found.add(uses[name])
        elif here and name not in uses:
            found.add((*here, name))
    return found


def with_whole_clauses(lines):
    """The lines, where a clause of several lines is one."""
    whole, is_open = [], False
    for line in lines:
        if is_open:
            whole[-1] += " " + line.strip()
        else:
            whole.append(line)
        is_open = bool(CLAUSE.match(whole[-1])) and whole[-1].count("{") > whole[-1].count("}")
    return whole


def calls_in(crate, path):
    """The public calls of a file."""
    found, owner, indent = [], None, None
    lines = with_whole_clauses(lines_of(path))
    uses = uses_of(lines)
    for line in lines:
        owner = OWNER.match(line)[1] if OWNER.match(line) else None if line == "}" else owner
        match = CALL.match(line)
        if match:
            indent = match[1]
            found.append(Call(crate, path, f"{owner if indent else crate}::{match[2]}", set(), set()))
        clause = CLAUSE.match(line)
        if indent is not None and clause:
            found[-1].clauses.add(clause[1])
            found[-1].words |= named_in(line, uses, None)
        if indent is not None and (line in (indent + "{", indent + "}") or line.endswith("{}")):
            indent = None
    return found


def all_calls():
    """Every public call of crates/*/src, by its name; where two have one name, both."""
    found = {}
    for crate in sources.crates():
        for path in sources.files_below(f"crates/{crate}/src", ".rt"):
            for call in calls_in(crate, path):
                found.setdefault(call.name, []).append(call)
    return found


def definitions_named(path, here):
    """What each definition of a file of specs names, and what those stand for that the file hands on."""
    name = None
    lines = lines_of(path)
    uses = uses_of(lines)
    handed_on = uses_of([line for line in lines if line.startswith("pub use ")])
    found = {(*here, name): {what} for name, what in handed_on.items() if len(what) == 3}
    for line in lines:
        match = HEAD.match(line)
        if match and not line.startswith(("use ", "pub use ", "--", "infix")):
            name = match[1]
        if name and not line.startswith("--"):
            found.setdefault((*here, name), set()).update(named_in(line, uses, here) - {(*here, name)})
    return found


def all_named():
    """What each definition of crates/*/specs names."""
    found = {}
    for crate in sources.crates():
        for path in sources.files_below(f"crates/{crate}/specs", ".antt"):
            found |= definitions_named(path, (crate, os.path.basename(path)[:-len(".antt")]))
    return found


def led_to(call, named):
    """The definitions that the contract of a call leads to."""
    found, ahead = set(), set(call.words)
    while ahead:
        found |= ahead
        ahead = {other for one in ahead for other in named.get(one, ())} - found
    return found
