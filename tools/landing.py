"""Which crates' must-fail edits are due: those that earlier gates owe, those of crates that have changed since the last landing, and in
turn a third of the others.

No gate can record what it had no time for, since it runs in a clone of its own. So the record of a landing takes its gate to have run on
the slowest machine (tools/reckoning.py), and the edits for which that has no time are owed.
"""
import hashlib
import os
import subprocess

import reckoning
import sources

RECORD = os.path.join(sources.ROOT, "crates", "landed")
TURNS = 3
OWED = "owed"


def sums():
    """A sum for each crate, over the kit, its line in crates.txt, its files, and the sums of the crates that it names."""
    kit = subprocess.run(["rt", "version"], capture_output=True, text=True, check=True).stdout
    lines, found = sources.crate_lines(), {}
    lower = sources.below()
    for crate in sorted(lower, key=lambda name: (len(lower[name]), name)):
        whole = hashlib.sha256((kit + lines[crate]).encode())
        for folder in ("src", "specs", "proofs", "must-fail"):
            for path in sources.files_below(f"crates/{crate}/{folder}", ""):
                with open(os.path.join(sources.ROOT, path), "rb") as file:
                    whole.update(path.encode() + hashlib.sha256(file.read()).digest())
        for name in sorted(lower[crate]):
            whole.update(found[name].encode())
        found[crate] = whole.hexdigest()
    return found


def read_record():
    """The number of the last landing and the sums of that state, or `owed` for one: 0 and none if nothing is recorded."""
    if not os.path.isfile(RECORD):
        return 0, {}
    with open(RECORD, encoding="utf-8") as file:
        words = [line.split() for line in file if not line.startswith("#")]
    return int(words[0][1]), dict(words[1:])


def text_of_record(number, now, owed):
    """The text of a record: the number of a landing, and the sum of each crate, if its edits are not owed."""
    lines = [f"{crate} {OWED if crate in owed else text}\n" for crate, text in sorted(now.items())]
    head = "# what has landed: its number, and the sum of each crate with all below it, or that its edits are owed (tools/due --landed)\n"
    return "".join([head, f"landing {number + 1}\n", *lines])


def write_record():
    """Records the present state as the one that has landed last."""
    number, landed = read_record()
    now = sums()
    tried = sum(due(with_edits(), number, landed, now), [])
    fitting = reckoning.costs().fitting(reckoning.SLOWEST, tried)
    with open(RECORD, "w", encoding="utf-8") as file:
        file.write(text_of_record(number, now, [crate for crate in tried if crate not in fitting]))


def with_edits():
    """The crates that have must-fail edits, lowest first."""
    return [crate for crate in sources.crates() if sources.files_below(f"crates/{crate}/must-fail", ".edit")]


def due(crates, number, landed, now):
    """Of crates with edits, those that are owed, those that have changed since a landing, and those whose turn it is."""
    owed = [crate for crate in crates if landed.get(crate) == OWED]
    changed = [crate for crate in crates if crate not in owed and landed.get(crate) != now[crate]]
    others = [crate for crate in crates if crate not in owed + changed]
    return owed, changed, [crate for crate in others if crates.index(crate) % TURNS == number % TURNS]
