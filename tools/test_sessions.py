"""Tests of `tools/try` with a Python program, whose documents are served on a socket, by a stand-in for the program without a proof."""
import os
import sys
import tempfile
import unittest
import unittest.mock

sys.dont_write_bytecode = True
import sessions  # noqa: E402

# A stand-in for `rt`, whose program answers a line with the session's number and itself. No owner but `p` has a view. It stops at one line.
STAND_IN = """import sys
requests, answers = open(sys.argv[-2], "rb"), open(sys.argv[-1], "wb")
held = {}
for head in requests:
    verb, number, count = head.decode().split()
    words = requests.read(int(count))
    status, text = 0, b""
    if verb == "open":
        assert number not in held
        held[number] = b""
    elif verb == "drop":
        del held[number]
    elif verb == "line" and words == b"stop":
        sys.exit("checked: fault kind=overflow")
    elif verb == "view":
        status, text = (0, held[number]) if words == b"p" else (4, b"")
    else:
        text = held[number] = number.encode() + b" " + (words or b"end") + b"\\n"
    answers.write(f"{status} {len(text)} \\n".encode() + text)
    answers.flush()
"""
PROGRAM = """import os, subprocess, sys
from owlantimony import NoOwnerError, Session, ClosedError
one, other = Session(), Session()
print(one.line("a"), other.line("b"), one.line("x" * 100_000) == ["0 " + "x" * 100_000])
print(one.view("p") == ["0 " + "x" * 100_000], other.view("p"), other.finish())
try:
    one.view("q")
except NoOwnerError:
    print("no owner")
one.close()
try:
    one.line("a")
except ClosedError:
    print("closed")
other_program = "import owlantimony; print(owlantimony.Session().line('d'))"
print(Session().line("c"), subprocess.run([sys.executable, "-c", other_program], capture_output=True).stdout)
if sys.argv[1:] == ["stop"]:
    try:
        other.line("stop")
    except ConnectionError as fault:
        print(fault)
sys.exit(7)
"""
LINES = """['0 a'] ['1 b'] True
True ['1 b'] ['1 end']
no owner
closed
['0 c'] b"['0 d']\\n"
"""


def tried(*words: str) -> tuple[int, str, list[str]]:
    """The exit status of a Python program with these words, what it writes, and what is told meanwhile."""
    told: list[str] = []
    with tempfile.TemporaryDirectory() as folder:
        for name, text in (("rt", f"#!{sys.executable}\n{STAND_IN}"), ("program.py", PROGRAM)):
            with open(os.path.join(folder, name), "w", encoding="utf-8") as file:
                file.write(text)
        os.chmod(os.path.join(folder, "rt"), 0o755)
        out = os.path.join(folder, "out")
        run = os.path.join(folder, "program.py")
        path = f"{folder}:{os.environ['PATH']}"
        with unittest.mock.patch.dict(os.environ, {"PATH": path}), unittest.mock.patch("sessions.fill", lambda room: room):
            with open(out, "wb") as file, unittest.mock.patch("sessions.OUTPUT", file):
                status = sessions.run([run, *words], told.append)
        with open(out, encoding="utf-8") as file:
            return status, file.read(), told


class Programs(unittest.TestCase):
    def test_each_session_of_a_program_is_one_of_the_served_program(self) -> None:
        status, out, told = tried()
        self.assertEqual((status, out), (7, LINES))
        self.assertRegex(told[-2], "^the program is built")
        self.assertRegex(told[-1], "program.py ended with status 7, over an engine that is not proved, proved=no")

    def test_a_program_is_told_that_what_serves_it_has_stopped(self) -> None:
        status, out, told = tried("stop")
        self.assertEqual(out.splitlines()[-1], "the program that serves sessions has ended")
        self.assertIn("checked: fault kind=overflow", told[-2])

    def test_the_crates_are_copied_with_a_program_that_holds_sessions(self) -> None:
        with tempfile.TemporaryDirectory() as folder:
            place = sessions.fill(folder)
            with open(os.path.join(place, "src", "serving.rt"), encoding="utf-8") as file:
                self.assertIn("struct Held", file.read())
            with open(os.path.join(folder, "crates.txt"), encoding="utf-8") as file:
                line = next(line for line in file if line.startswith("domrun:"))
        self.assertEqual(line.split().count("dom_reader"), 1)


if __name__ == "__main__":
    unittest.main()
