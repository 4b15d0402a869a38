"""Runs of the program without a proof: `rt try` builds it and starts it once, and it answers any number of scripts one after the other.

A case is a script with the words that the program is given. Its answer is what the program wrote, and how it ended. It proves nothing.
"""
import atexit
import os
import select
import shutil
import signal
import subprocess
import sys
import tempfile
import time
from collections.abc import Callable
from dataclasses import dataclass, field

import pages
import serving

ROOT = os.path.normpath(os.path.join(os.path.dirname(os.path.abspath(__file__)), ".."))
EACH = 50  # after how many scripts it is told how many were run
PATIENCE = 300  # seconds for one script
LASTS = 14400  # seconds for the program, with the waits between scripts
ENDS = 300  # seconds in which the program has to end when there are no more scripts
STARTS = 3  # how often the program is built for the scripts of one call: again after a script on which it stopped


class Fault(Exception):
    """Why no script could be run."""


class Stopped(Exception):
    """That the program is there no more, or does not answer."""


@dataclass
class Case:
    """A script: its name, its bytes, the program's words, and what it has to write where that is known. If it stands with its answers,
    also the file and the input lines with theirs."""

    name: str
    script: bytes
    words: list[str] = field(default_factory=list)
    wanted: bytes | None = None
    path: str = ""
    commands: list[pages.Command] = field(default_factory=list)


@dataclass
class Answer:
    """What the program wrote for a case, and what went wrong with the run, if anything did."""

    case: Case
    output: bytes
    fault: str

    def is_right(self) -> bool:
        """Whether the run ended well, and with the wanted output where that is known."""
        return not self.fault and self.case.wanted in (None, self.output)


def counted(count: int, word: str) -> str:
    """So many of a thing, as `1 script` and `2 scripts`."""
    return f"{count} {word}" if count == 1 else f"{count} {word}s"


def head_of(case: Case) -> bytes:
    """The line before a script: how many bytes it has, and the program's words."""
    return (" ".join([str(len(case.script)), *case.words]) + "\n").encode("ascii")


def ending_of(status: str, text: str) -> str:
    """What went wrong with a run that ended with this status: nothing with status 0."""
    return "" if status == "0" else f"ended with status {status}" + (f"; {text}" if text else "")


class Program:
    """The program without a proof. It is being built once this is made, and answers scripts from then until it is closed."""

    def __init__(self, tell: Callable[[str], None], fill: Callable[[str], str] | None = None) -> None:
        if not shutil.which("rt"):
            raise Fault("the Rattle kit is not here: `rt version` prints its name where it is (README, 'Run it')")
        tell("building the program without a proof takes two minutes on two free cores")
        self.tell, self.begun, self.stopped = tell, time.monotonic(), ""
        self.room = tempfile.TemporaryDirectory(prefix="owlantimony-")
        self.pipes = [os.path.join(self.room.name, name) for name in ("scripts", "answers")]
        place = (fill or serving.fill)(self.room.name)
        for pipe in self.pipes:
            os.mkfifo(pipe)
        self.told = tempfile.TemporaryFile()
        # With an argument the kit's interpreter, which takes many times as long, is left out.
        words = ["rt", "try", "--seconds", str(LASTS), "--", *self.pipes]
        self.process = subprocess.Popen(words, cwd=place, stdin=subprocess.DEVNULL, stdout=self.told, stderr=self.told)
        # Whoever is told to stop stops the build too.
        atexit.register(self.process.terminate)
        signal.signal(signal.SIGTERM, lambda *_: sys.exit(143))
        self.answers = os.open(self.pipes[1], os.O_RDONLY | os.O_NONBLOCK)
        self.scripts = -1

    def __enter__(self) -> "Program":
        return self

    def __exit__(self, *_: object) -> None:
        self.close()

    def said(self) -> str:
        """The last lines that `rt try` wrote, with the paths of the repository."""
        self.told.seek(0)
        lines = self.told.read().decode(errors="replace").replace(self.room.name + os.sep, "").splitlines()
        return "\n".join([line for line in lines if not line.endswith("proved=no")][-20:])

    def wait_until_built(self) -> None:
        """Waits until the program reads scripts. If `rt try` ends before that, it built none."""
        while self.scripts < 0:
            try:
                self.scripts = os.open(self.pipes[0], os.O_WRONLY | os.O_NONBLOCK)
            except OSError:
                if self.process.poll() is not None:
                    raise Fault(f"`rt try` in crates/domrun built no program:\n{self.said()}") from None
                time.sleep(0.1)
        os.set_blocking(self.scripts, True)
        self.tell(f"the program is built, after {time.monotonic() - self.begun:.0f} seconds")

    def read(self) -> bytes:
        """The next bytes that the program wrote."""
        if not select.select([self.answers], [], [], PATIENCE)[0]:
            self.stopped = f"no answer after {PATIENCE} seconds"
            raise Stopped
        found = os.read(self.answers, 1 << 16)
        if not found:
            raise Stopped
        return found

    def exchange(self, case: Case) -> tuple[str, bytes, str]:
        """Hands a script over, and gives the exit status, the output, and what the program says of its ending."""
        return self.ask(head_of(case) + case.script)

    def ask(self, request: bytes) -> tuple[str, bytes, str]:
        """Hands a request over, and gives the status, the bytes and the words that answer it."""
        text = memoryview(request)
        while text:
            text = text[os.write(self.scripts, text):]
        found = bytearray()
        while b"\n" not in found:
            found += self.read()
        head, _, output = found.partition(b"\n")
        status, count, said = head.decode("ascii").split(" ", 2)
        while len(output) < int(count):
            output += self.read()
        return status, bytes(output), said

    def answer(self, case: Case) -> Answer:
        """What the program answers a script. If it stops at it, the answer says where, and the program answers no other."""
        if self.scripts < 0:
            self.wait_until_built()
        try:
            status, output, said = self.exchange(case)
        except (BrokenPipeError, Stopped):
            return Answer(case, b"", self.stop())
        return Answer(case, output, ending_of(status, said))

    def stop(self) -> str:
        """Ends the program, which is there no more or does not answer, and gives what it said last."""
        self.end(0 if self.stopped else ENDS)
        self.stopped = self.stopped or "stopped; " + "; ".join(self.said().splitlines()[-3:])
        return self.stopped

    def end(self, patience: float) -> None:
        """Ends the program: by itself in so many seconds, else by force."""
        if self.scripts >= 0:
            os.close(self.scripts)
            self.scripts = -1
        try:
            self.process.wait(patience)
        except subprocess.TimeoutExpired:
            self.process.terminate()
            self.process.wait()

    def close(self) -> None:
        """Ends the program, and takes away what was made for it."""
        is_serving = self.scripts >= 0
        self.end(ENDS if is_serving else 0)
        said = self.said()
        os.close(self.answers)
        self.told.close()
        self.room.cleanup()
        if is_serving and self.process.returncode:
            said = said or f"`rt try` ended with status {self.process.returncode}, and said nothing"
            raise Fault(f"the program did not end well after the last script:\n{said}")


def run_some(cases: list[Case], program: Program, tell: Callable[[str], None]) -> list[Answer]:
    """The answers to the first cases: to all of them, or up to one at which the program stops."""
    answers: list[Answer] = []
    for case in cases:
        answers.append(program.answer(case))
        if program.stopped:
            break
        if len(answers) % EACH == 0 and len(answers) < len(cases):
            tell(f"{len(answers)} of {len(cases)} scripts were run")
    return answers


def run(cases: list[Case], tell: Callable[[str], None], first: Program | None = None) -> list[Answer]:
    """Runs all cases on one build, tells how far it is, and gives their answers in order. If the program stops at a script, the others are
    run on another build, three at most. A first program may have been started before; it is closed here."""
    answers: list[Answer] = []
    tell(counted(len(cases), "script"))
    for start in range(STARTS):
        if len(answers) == len(cases):
            break
        if start:
            tell(f"the program stopped at {answers[-1].case.name}; the others need another build")
        with first or Program(tell) as program:
            answers += run_some(cases[len(answers):], program, tell)
        first = None
    return answers + [Answer(case, b"", "was not run") for case in cases[len(answers):]]
