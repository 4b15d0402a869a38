"""The signatures of public calls in pages, compared with the sources.

A page shows them in a fenced block whose first line is `// calls of NAME`, where NAME is a type or a crate. Each line after it that begins
with `fn` is the head of a public call of NAME as the source has it, without its clauses.
"""
import os
import re
from collections.abc import Iterator

import sources

BLOCK = re.compile(r"^```rust\n// calls of (\w+)\n(.*?)^```", re.MULTILINE | re.DOTALL)
HEAD = re.compile(r"^( *)pub fn (\w+)(?:<[^>]*>)?\(", re.MULTILINE)
OWNER = re.compile(r"^impl(?:<[^>]*>)? (?:.* for )?(\w+)")


def head_at(text: str, start: int) -> str:
    """The head of a call that begins at a place of a source: up to its clauses or its body, on one line."""
    head = re.match(r"\s*pub (fn .*?)\s*(?=\n\s*(?:where|requires|ensures|\{)|\{)", text[start:], re.DOTALL)
    joined = " ".join(head[1].split()) if head else ""
    return joined.replace("( ", "(").replace(", )", ")")


def heads_of(crate: str) -> dict[tuple[str, str], str]:
    """The heads of the public calls of a crate, by their type's name or else the crate's, and their own."""
    found = {}
    for path in sources.files_below(f"crates/{crate}/src", ".rt"):
        with open(os.path.join(sources.ROOT, path), encoding="utf-8") as file:
            text = file.read()
        for match in HEAD.finditer(text):
            owners = [OWNER.match(line)[1] for line in text[:match.start()].split("\n") if OWNER.match(line)]
            found[owners[-1] if match[1] else crate, match[2]] = head_at(text, match.start())
    return found


def faults_in(text: str) -> Iterator[str]:
    """What of the signatures in a page is not as the sources have it."""
    blocks = BLOCK.findall(text)
    heads = {key: head for crate in sources.crates() for key, head in heads_of(crate).items()} if blocks else {}
    for owner, body in blocks:
        for line in body.split("\n"):
            name = re.match(r"fn (\w+)", line)
            if name and heads.get((owner, name[1])) != line:
                yield f"{owner}::{name[1]} has another head: {heads.get((owner, name[1]), 'there is none')}"
