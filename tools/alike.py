"""What stands twice in the crates: files with passages of one shape, and statements of lemmas that several files have."""
import itertools
import re
from collections import defaultdict
from collections.abc import Iterable, Iterator

import lemmas
import sources

RUN = 6  # so many lines, one after the other, are a passage
COMMON = 8  # a passage that stands in more places is a form of writing
TOKEN = re.compile(r'"(?:[^"\\]|\\.)*"|[^\W\d]\w*|\d+|\S')
PASSED_BY = re.compile(r"$|--|//|(?:pub |ghost )*(?:use|mod|open) |\W+$")


def shape_of(line: str) -> str:
    """A line with its names by their order, and one sign for each number and string."""
    names: dict[str, int] = {}
    tokens = [it if not it[0].isdigit() and it[0] != '"' else "#" for it in TOKEN.findall(line)]
    return " ".join(f"{names.setdefault(it, len(names))}" if it[0].isalpha() or it[0] == "_" else it for it in tokens)


def shapes_of(lines: Iterable[str]) -> list[str]:
    """The shapes of lines that say something: without empty ones, comments, imports and signs alone."""
    return [shape_of(line) for line in map(str.strip, lines) if not PASSED_BY.match(line)]


def pairs_in(files: dict[str, list[str]]) -> set[tuple[str, str]]:
    """The pairs of files, given by their shapes, that share a passage; a file with itself, if one stands there twice."""
    places = defaultdict(list)
    for path, shapes in files.items():
        for first in range(len(shapes) - RUN + 1):
            places[tuple(shapes[first:first + RUN])].append((path, first))
    shared = [found for found in places.values() if 1 < len(found) <= COMMON]
    both = [(one, other) for found in shared for one, other in itertools.combinations(found, 2)]
    return {(one[0], other[0]) for one, other in both if one[0] != other[0] or other[1] - one[1] >= RUN}


def paths(parts: tuple[str, ...]) -> Iterator[str]:
    """The files of Rattle and antt in some parts of the crates."""
    for crate in sources.crates():
        for part in parts:
            for ending in (".rt", ".antt"):
                yield from sources.files_below(f"crates/{crate}/{part}", ending)


def lines_of(path: str) -> list[str]:
    """The lines of a file of the repository."""
    with open(f"{sources.ROOT}/{path}", encoding="utf-8") as file:
        return file.read().splitlines()


def pairs() -> set[tuple[str, str]]:
    """The pairs of files of the crates that share a passage."""
    return pairs_in({path: shapes_of(lines_of(path)) for path in paths(("src", "specs", "proofs"))})


def repeated(files: dict[str, list[str]]) -> dict[str, set[str]]:
    """The statements with an equation, whatever their names are called, that several files of proofs have, with these. Goals have theirs
    from the contracts."""
    found = defaultdict(set)
    for path, lines in files.items():
        for _, _, signature in lemmas.lemmas_of(lines):
            if "≡" in signature and not signature.startswith("goal."):
                found[lemmas.renamed(signature)].add(path)
    return {statement: those for statement, those in found.items() if len(those) > 1}


def statements() -> dict[str, set[str]]:
    """The statements that stand in several files of the crates' proofs."""
    return repeated({path: lines_of(path) for path in paths(("proofs",))})
