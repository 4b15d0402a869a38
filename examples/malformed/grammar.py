"""A reader of the lines of the protocol that is written apart from the engine, from the table of commands in docs/PROTOCOL.md.

`answer_class` says of a line, a list of bytes without its line feed, whether it is nobody's ('owner'), its owner's but not in the
grammar ('syntax'), or read ('read'): then its answer is `ok` or another refusal.
"""
import re

MAX_LINE = 65_536

NAME = "[A-Za-z_][A-Za-z0-9_-]*"
NUM = "(?:0|[1-9][0-9]{0,8})"
COMPONENT_WORD = "c[1-9][0-9]{0,8}(?:[.][1-9][0-9]{0,8}){0,7}"
KINDS_IN_ORDER = ("element", "text", "comment", "document", "fragment")

# What stands for the words of the table that are written in capitals.
PIECES = {
    "WORD": "[!#-~][!-~]*",
    "STR": r'"(?:[ !#-\[\]-~]|\\["\\]|\\u[0-9A-Fa-f]{4})*"',
    "NUM": NUM,
    "NODE": f"(?:n{NUM}|m{NUM}|{COMPONENT_WORD}:m{NUM})",
    "RANGE": f"r{NUM}",
    "ITERATOR": f"i{NUM}",
    "WALKER": f"w{NUM}",
    "OBSERVER": f"o{NUM}",
    "TYPE": "[A-Za-z0-9_.:-]{1,64}",
    "LABEL": "[A-Za-z0-9_.:-]{1,64}",
    "ACTION": "(?:log|stop|stop-now|cancel)",
    "SIDE": "(?:start|end)",
    "SHOW": "(?:all|(?!,)" + "".join(f"(?:(?:(?<= )|,){kind})?" for kind in KINDS_IN_ORDER) + "(?<! ))",
    "FILTER": f"(?:skip|reject)={NAME}",
    "MOVE": "(?:parent|first|last|next|previous|next-sibling|previous-sibling)",
    "NAMES": f"filter={NAME}(?:,{NAME})*",
}

# The table: a word in brackets may be left out.
TABLE = """
new element WORD
new text STR
new comment STR
new fragment
document
attach NODE
append NODE NODE
insert NODE NODE NODE
replace NODE NODE NODE
remove NODE
adopt NODE NODE
normalize NODE
set NODE WORD STR
unset NODE WORD
data NODE STR
replace-data NODE NUM NUM STR
split NODE NUM
text NODE STR
tree NODE
attr NODE WORD
parent NODE
docof NODE
children NODE
contains NODE NODE
connected NODE
shadow-root NODE
slot-of NODE
range-new
range-start RANGE NODE NUM
range-end RANGE NODE NUM
range-collapse RANGE SIDE
range-drop RANGE
range-get RANGE
range-text RANGE
extract RANGE
delete RANGE
insert-node RANGE NODE
iter-new NODE SHOW [FILTER]
walk-new NODE SHOW [FILTER]
iter-next ITERATOR
iter-prev ITERATOR
walk WALKER MOVE
iter-at ITERATOR
walk-at WALKER
walk-set WALKER NODE
query NODE STR
matches NODE STR
listen NODE TYPE LABEL ACTION [capture] [once] [passive]
unlisten NODE TYPE LABEL [capture]
dispatch NODE TYPE [bubbles] [cancelable] [composed] [related NODE]
observer
observe OBSERVER NODE [childList] [attributes] [characterData] [subtree] [attributeOldValue] [characterDataOldValue] [NAMES]
disconnect OBSERVER
take OBSERVER
micro LABEL
.
"""
ROWS = TABLE.strip().split("\n")
PAGE_ROWS = ROWS
COMPONENT_ROWS = ROWS + ["assigned NODE"]

OWNER = re.compile(f"(p|{COMPONENT_WORD}) ".encode())


def parts_of(row):
    """The parts of a row of the table, with whether each may be left out."""
    return [(part.strip("[]"), part.startswith("[")) for part in re.findall(r"\[[^]]*\]|[^ ]+", row)]


def pattern_of(row):
    """What a row of the table matches, with a space in front."""
    text = ""
    for part, may_go in parts_of(row):
        words = "".join(" " + PIECES.get(word, re.escape(word)) for word in part.split(" "))
        text += f"(?:{words})?" if may_go else words
    return text


PAGE = re.compile("|".join(map(pattern_of, PAGE_ROWS)))
COMPONENT = re.compile("|".join(map(pattern_of, COMPONENT_ROWS)))


def answer_class(line):
    """Whether a line is nobody's, not in its owner's grammar, or read."""
    owner = OWNER.match(line)
    if not owner:
        return "owner"
    if len(line) > MAX_LINE or any(not 0x20 <= byte <= 0x7E for byte in line):
        return "syntax"
    words = line[owner.end() - 1 :].decode("ascii")
    commands = PAGE if owner[1] == b"p" else COMPONENT
    return "read" if commands.fullmatch(words) else "syntax"
