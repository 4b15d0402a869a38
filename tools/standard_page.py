"""The text of docs/STANDARD.md: each name of the Standard's sections that is defined here, with its definitions, a call and an example."""
import os

import references
import sections
import sources

FOLDER = os.path.join(sources.ROOT, "docs")
HEAD = """# The DOM Standard, section by section

For you, if you know the DOM Standard and ask where one of its algorithms is here, what is proved of it, and what is not here at all. Beside
an algorithm or concept stand

- its definitions, in `specs/` of a crate: what the algorithm does, as a value that is computed from the state before it. Read the
  definitions beside the Standard's text. Comments at changes give the Standard's numbers of steps. These numbers were not compared with
  the living text: if they differ, go by the words;
- a public call whose contract leads to one of these definitions: its `ensures` clauses name it, or name what is defined by it. The prover
  has accepted the call with this contract. If the call is a law (`dom_worlds`, or a name such as `law_one_list_serves_all`), the contract
  is all of it;
- a script that shows it. Its answers stand in the file beside it that ends in `.out`.

Other calls may meet the same definition; `Session::line` does with each line of a script what the definitions of `dom_model` say.
docs/PROVED.md has what is proved crate by crate, docs/PROTOCOL.md the commands of the scripts. What is not here is listed at the end.

`tools/standard --write` makes this page, from the references to the Standard in the comments of the sources and from tools/sections.py.
`tools/standard` checks it: that it is up to date, that every call and every script is there, and that every contract leads where it says.
"""

ABSENT = """
## What of the Standard is not here

None of this is in the protocol, in the definitions or in the code of the crates. `owlantimony.dom` builds some of it of commands
(docs/FROM-PYTHON.md), such as cloning, `querySelector()`, `classList`, `replaceChildren()` and `surroundContents()`. What the engine does
in another way than the Standard, or than browsers do, is in docs/PROTOCOL.md under 'Where the engine does what browsers do not'.
"""


def link(text, path):
    """A link to a file of the repository, from a page of docs/."""
    return f"[`{text}`](../{path})"


def definition_links(defined):
    """Links to the definitions of a name: those of the meaning, or else those of other crates."""
    return ", ".join(link(d.name, f"crates/{d.crate}/specs/{d.file}.antt") for d in references.of_meaning(defined))


def rows(names, number, by_name, known):
    """The rows of a section."""
    found = []
    for name, shown in names.items():
        if shown:
            call, example = shown
            cells = [name, definition_links(by_name[(number, name)]), known[call][0].link(FOLDER)]
            found.append(f"| {' | '.join(cells)} | {link(os.path.basename(example), f'examples/{example}.in')} |")
    return found


def page(by_name, known):
    """The whole page."""
    lines, chapter = [HEAD], None
    for number, title, names in sections.SECTIONS:
        of_section = rows(names, number, by_name, known)
        if of_section and number.split(".")[0] != chapter:
            chapter = number.split(".")[0]
            head = "| in the Standard | definitions | call | script |"
            lines += [f"\n## {chapter} {sections.CHAPTERS[chapter]}\n", head, "|---|---|---|---|"]
        lines += [f"| **{number} {title}** | | | |", *of_section] if of_section else []
    lines.append(ABSENT)
    for title, parts in sections.ABSENT.items():
        lines += [f"- **{title}**: {parts}"]
    return "\n".join(lines).replace("\n\n\n", "\n\n") + "\n"
