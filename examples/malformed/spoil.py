"""Spoils the lines of each command of the protocol in many ways. Some of what comes out is in the grammar still."""
import itertools

import grammar

# For what stands in capitals in the table: a word that fits, for the page and for a component, and words that may not fit.
FITTING = {
    "WORD": "div",
    "STR": '"a b"',
    "NUM": "10",
    "RANGE": "r0",
    "ITERATOR": "i0",
    "WALKER": "w0",
    "OBSERVER": "o0",
    "TYPE": "click",
    "LABEL": "label",
    "ACTION": "log",
    "SIDE": "start",
    "SHOW": "element,text",
    "FILTER": "skip=a",
    "MOVE": "next-sibling",
    "NAMES": "filter=id,class",
}
NUMBERS = ("01", "00", "-1", "+1", "1234567890", "999999999", "1.5", "x", "")
STRINGS = ('"a', 'a"', "a", '"', '""', '"a"b"', '"a""b"', '"\\"', '"\\x"', '"\\u12"', '"\\u123g"', '"\\u12345"', '"\\uABcd"', '"\x7f"', '"\t"')
UNFIT = {
    "WORD": ('"div"', "1a", "a=b", "\x7f", "é"),
    "STR": STRINGS,
    "NUM": NUMBERS,
    "NODE": [letter + number for letter in ("n", "m", "c1:m", "c0:m", "c01:m", "c1234567890:m", "c1.2:m", "c1.0:m", "c1.:m", "c1.1.1.1.1.1.1.1.1:m", "N", "r", "c1:n") for number in ("0", *NUMBERS)],
    "RANGE": ["r" + number for number in NUMBERS] + ["n0", "i0", "w0", "o0", "R0"],
    "ITERATOR": ["i" + number for number in NUMBERS] + ["n0", "r0", "w0", "o0", "I0"],
    "WALKER": ["w" + number for number in NUMBERS] + ["n0", "r0", "i0", "o0", "W0"],
    "OBSERVER": ["o" + number for number in NUMBERS] + ["n0", "r0", "i0", "w0", "O0"],
    "TYPE": ("a" * 64, "a" * 65, "a,b", '"a"', "-", "a/b", "_.:"),
    "LABEL": ("a" * 64, "a" * 65, "a,b", '"a"', "-", "a/b", "_.:"),
    "ACTION": ("log", "stop", "stop-now", "cancel", "Log", "stop-", "none", "capture"),
    "SIDE": ("end", "Start", "middle", "true"),
    "SHOW": [",".join(kinds) for count in (1, 2, 3) for kinds in itertools.permutations(grammar.KINDS_IN_ORDER, count)]
    + ["all", "All", "all,text", ",text", "text,", "text,,comment", "text,text", "shadow", ","],
    "FILTER": ("reject=a", "skip", "skip=", "reject=", "skip=1", "skip=a,b", "Skip=a", "accept=a", "skip=-a", "reject=_"),
    "MOVE": ("parent", "first", "last", "next", "previous", "previous-sibling", "Next", "nextSibling", "up", "prev"),
    "NAMES": ("filter", "filter=", "filter=,", "filter=a,", "filter=,a", "filter=1", "filter=a,,b", "filter=a", "filter=a,a", "Filter=a"),
}
# What is put into gaps between words.
INTRUDERS = (" ", "\t", "\r", "\0", "x ", "n0 ", '"x" ', "é", "\x7f", "capture ", ".")


def fitting(part, node):
    """A word that fits where the table has this part: a part of two words gives two."""
    return [node if word == "NODE" else FITTING.get(word, word) for word in part.split(" ")]


def lines_of(row, node):
    """Words of lines of a row: without what may be left out, with each of these parts alone, with each two in either order, with all."""
    parts = grammar.parts_of(row)
    must = [word for part, may_go in parts if not may_go for word in fitting(part, node)]
    free = [fitting(part, node) for part, may_go in parts if may_go]
    chosen = [[], free, free[::-1]] + [[one] for one in free] + [list(two) for two in itertools.permutations(free, 2)] + [[one, one] for one in free]
    for parts_chosen in chosen:
        yield must + [word for part in parts_chosen for word in part]


def unfit_lines(row, node):
    """Words of lines of a row in which one word is another one that may not fit."""
    parts = [part for part, _ in grammar.parts_of(row)]
    pieces = [piece for part in parts for piece in part.split(" ")]
    whole = [word for part in parts for word in fitting(part, node)]
    for at, piece in enumerate(pieces):
        for unfit in UNFIT.get(piece, ()):
            yield whole[:at] + [unfit] + whole[at + 1 :]


def spoilt(words):
    """Texts made of a line's words: a word goes, comes twice, changes its case or its place, or something comes between two."""
    yield " ".join(words)
    for at, word in enumerate(words):
        front, back = words[:at], words[at + 1 :]
        yield " ".join(front + back)
        yield " ".join(front + [word, word] + back)
        yield " ".join(front + [word.swapcase()] + back)
        yield " ".join(front + [word.capitalize()] + back)
        yield " ".join(front + [word[:-1]] + back)
        yield " ".join(front + [word + "x"] + back)
        yield " ".join(front + back[:1] + [word] + back[1:])
    for at in range(len(words) + 1):
        for intruder in INTRUDERS:
            yield (" ".join(words[:at]) + " ").lstrip(" ") + intruder + " ".join(words[at:])
    for intruder in INTRUDERS:
        yield " ".join(words) + intruder


def scripts():
    """A list of lines for each row of the table and each owner."""
    for owner, node, rows in (("p", "n0", grammar.PAGE_ROWS), ("c1", "m0", grammar.COMPONENT_ROWS)):
        for row in rows:
            words_of_lines = list(lines_of(row, node))
            texts = [text for words in words_of_lines for text in spoilt([owner] + words)]
            texts += [" ".join([owner] + words) for words in unfit_lines(row, node)]
            yield list(dict.fromkeys(text.encode("latin-1") for text in texts))
