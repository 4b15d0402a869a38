"""How long the gate takes on a machine, and which must-fail edits it has time for: reckoned from the seconds of each crate in docs/GATE.md,
the machine's cores, and how slow they are.
"""
import os
import re
import shutil
import subprocess
import tempfile
import time
from collections.abc import Iterable
from dataclasses import dataclass

import sources

MINUTES = 140  # past this a gate sets edits aside: CI ends after 180
EDIT, REST = 17, 300  # seconds for an edit, and for what the gate does after `rt ci`
PROBE = "dom_base"  # the crate that shows how slow a machine is
GATE = os.path.join(sources.ROOT, "docs", "GATE.md")
ROW = re.compile(r"\| `(\w+)` \| [\d,]+(?: tests)? \| ([\d,]+) ")


@dataclass
class Machine:
    """A machine: how many crates it checks side by side, and how many times as long as that of docs/GATE.md it takes for one."""

    cores: int
    slowness: float


# The slowest machine that the record of a landing reckons with, and a slowness that none is taken to pass.
SLOWEST, MOST = Machine(2, 2.2), 3.0


@dataclass
class Costs:
    """Seconds of processor for a verdict on each crate, the crates below each, and how many edits each has."""

    seconds: dict[str, int]
    below: dict[str, set[str]]
    edits: dict[str, int]

    def chain(self) -> int:
        """The seconds of the longest chain of crates."""
        longest: dict[str, int] = {}
        for crate in sorted(self.below, key=lambda it: len(self.below[it])):
            longest[crate] = self.seconds[crate] + max((longest[it] for it in self.below[crate]), default=0)
        return max(longest.values())

    def minutes(self, machine: Machine, tried: Iterable[str]) -> float:
        """How long the gate takes with the edits of some crates. A crate with edits is checked from nothing once more."""
        seconds = sum(self.seconds.values()) + sum(self.seconds[crate] + EDIT * self.edits[crate] for crate in tried)
        return (max(seconds / machine.cores, self.chain()) + REST) * machine.slowness / 60

    def fitting(self, machine: Machine, crates: Iterable[str]) -> list[str]:
        """The crates for whose edits there is time, where each is taken in its order that still fits."""
        found: list[str] = []
        for crate in crates:
            if self.minutes(machine, [*found, crate]) <= MINUTES:
                found.append(crate)
        return found


def seconds_in(page: str, crates: Iterable[str]) -> dict[str, int]:
    """The seconds of crates by the table in docs/GATE.md; a crate without a row is taken to cost what the others do on average."""
    known = {name: int(number.replace(",", "")) for name, number in ROW.findall(page)}
    average = sum(known.values()) // max(len(known), 1)
    return {crate: known.get(crate, average) for crate in crates}


def costs() -> Costs:
    """What the crates of the repository cost."""
    with open(GATE, encoding="utf-8") as file:
        seconds = seconds_in(file.read(), sources.crates())
    edits = {crate: len(sources.files_below(f"crates/{crate}/must-fail", ".edit")) for crate in sources.crates()}
    return Costs(seconds, sources.below(), edits)


def slowness(cores: int, seconds: int) -> float:
    """How slow the machine is: as many verdicts on the first crate as there are cores, at once, beside its seconds in docs/GATE.md."""
    with tempfile.TemporaryDirectory() as room:
        begun, running = time.monotonic(), []
        for number in range(cores):
            place = os.path.join(room, str(number), "crates", PROBE)
            for part in ("src", "specs", "proofs"):
                shutil.copytree(os.path.join(sources.ROOT, "crates", PROBE, part), os.path.join(place, part))
            with open(os.path.join(room, str(number), "crates.txt"), "w", encoding="utf-8") as file:
                file.write(sources.crate_lines()[PROBE])
            running.append(subprocess.Popen(["rt", "verdict"], cwd=place, stdout=subprocess.DEVNULL, stderr=subprocess.DEVNULL))
        are_proved = [ran.wait() == 0 for ran in running]
        return (time.monotonic() - begun) / seconds if all(are_proved) else MOST


def this_machine(known: Costs, tried: Iterable[str]) -> Machine:
    """The machine that this runs on. If one with its cores has time for all edits however slow it is, it is taken to be that slow."""
    cores = len(os.sched_getaffinity(0))
    has_time = known.minutes(Machine(cores, MOST), tried) <= MINUTES
    return Machine(cores, MOST if has_time else slowness(cores, known.seconds[PROBE]))
