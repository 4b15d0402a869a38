"""Replays the stored examples through the Python binding, and tries what it raises. Run by bindings/check."""
import os
import subprocess
import sys
import textwrap
import threading
import unittest

from owlantimony import ClosedError, NoOwnerError, Session, WrongThreadError
from owlantimony.dom import Document
from owlantimony.served import is_served
from owlantimony.session import library_path

EXAMPLES = os.path.join(os.path.dirname(os.path.abspath(__file__)), "..", "..", "..", "examples")
MODULE = os.path.join(os.path.dirname(os.path.abspath(__file__)), "..")


def examples():
    """The paths of all scripts whose answers are stored beside them."""
    for folder, _, files in sorted(os.walk(EXAMPLES)):
        for file in sorted(files):
            path = os.path.join(folder, file[:-3])
            if file.endswith(".in") and os.path.exists(path + ".out"):
                yield path


def content(path):
    with open(path, "rb") as file:
        return file.read()


def lines_of(script):
    """The lines of a script: each ends in a line feed, but for the last, which is a line where it is not empty."""
    lines = script.split(b"\n")
    return lines if lines[-1] else lines[:-1]


class Examples(unittest.TestCase):
    def test_all_examples_are_answered_as_stored(self):
        replayed = 0
        for path in examples():
            with self.subTest(os.path.relpath(path, EXAMPLES)), Session() as session:
                text = b"".join(session.line_bytes(line) for line in lines_of(content(path + ".in")))
                text += "".join(f"{line}\n" for line in session.finish()).encode()
                self.assertEqual(text, content(path + ".out"))
                replayed += 1
        self.assertGreater(replayed, 100)


class Sessions(unittest.TestCase):
    def test_lines_are_given_without_their_line_feeds(self):
        with Session() as session:
            self.assertEqual(session.line("p new element div"), ["p ok n1"])
            self.assertEqual(session.line("p append n0 n1"), ["p ok"])
            self.assertEqual(session.line("p tree n0"), ["p ok (n0 document (n1 element div))"])
            self.assertEqual(session.finish(), [])

    def test_a_library_that_is_not_there_says_how_it_is_built(self):
        with self.assertRaisesRegex(OSError, "tools/build library"):
            Session("/nowhere/libowlantimony.so")

    def test_a_view_has_its_owners_lines_alone(self):
        with Session() as session:
            for line in ("p new element div", "p append n0 n1", "p attach n1", "p listen n1 pick page log", "p ."):
                session.line(line)
            for line in ("c1 new element b", "c1 append m0 m1", "c1 listen m1 pick inner log", "c1 .", "p ."):
                session.line(line)
            both = session.line("c1 dispatch m1 pick bubbles composed")
            self.assertEqual([line.split(" ")[0] for line in both], ["c1", "p", "c1"])
            self.assertEqual(session.view("p"), [both[1]])
            self.assertEqual(session.view("c1"), [both[0], both[2]])
            self.assertEqual(session.view("c2"), [])

    def test_a_view_of_a_component_inside_another_is_its_own(self):
        with Session() as session:
            for line in ("p new element div", "p append n0 n1", "p attach n1", "p .", "c1 new element div", "c1 append m0 m1"):
                session.line(line)
            self.assertEqual(session.line("c1 attach m1"), ["c1 ok c1.1"])
            session.line("c1 listen m1 pick outer log")
            session.line("c1 .")
            both = session.line("c1.1 dispatch m0 pick composed")
            self.assertEqual([line.split(" ")[0] for line in both], ["c1", "c1.1"])
            self.assertEqual(session.view("c1"), [both[0]])
            self.assertEqual(session.view("c1.1"), [both[1]])
            self.assertEqual(session.view("c1.1.1"), [])
            self.assertEqual(session.view("c1.2.3.4.5.6.7.8"), [])

    def test_a_word_that_is_no_owners_is_refused(self):
        with Session() as session:
            for word in ("", "x", "c", "c0", "c01", "pp", "p.1", "c1.", "c1.0", "c1.01", "c1..1", "c1.2.3.4.5.6.7.8.9"):
                self.assertRaises(NoOwnerError, session.view, word)

    def test_a_closed_session_says_so(self):
        session = Session()
        session.close()
        session.close()
        self.assertRaises(ClosedError, session.line, "p .")
        self.assertRaises(ClosedError, session.finish)
        self.assertRaises(ClosedError, session.view, "p")

    def test_sessions_know_nothing_of_each_other(self):
        with Session() as one, Session() as other:
            self.assertEqual(one.line("p new element a"), ["p ok n1"])
            self.assertEqual(other.line("p new element b"), ["p ok n1"])
            self.assertEqual(one.line("p new element a"), ["p ok n2"])

    def test_another_thread_may_neither_use_nor_close_a_session(self):
        raised = []

        def use():
            for call in (lambda: session.line("p ."), session.finish, lambda: session.view("p"), session.close):
                try:
                    call()
                except WrongThreadError as fault:
                    raised.append(str(fault))

        with Session() as session:
            thread = threading.Thread(target=use)
            thread.start()
            thread.join()
            self.assertEqual(session.line("p new element a"), ["p ok n1"])
        self.assertEqual(raised, ["a session is used and closed by the thread that made it"] * 4)

    def test_another_thread_may_neither_use_nor_close_a_document(self):
        raised = []

        def use():
            for call in (document.createTextNode, lambda data: document.close()):
                try:
                    call("x")
                except WrongThreadError:
                    raised.append(call)

        with Document() as document:
            thread = threading.Thread(target=use)
            thread.start()
            thread.join()
            self.assertEqual(document.createTextNode("x").data, "x")
        self.assertEqual(len(raised), 2)
        self.assertRaises(ClosedError, document.createTextNode, "x")

    @unittest.skipIf(is_served(library_path()), "the engine is another program's")
    def test_want_of_memory_is_an_error_of_its_own_and_stays(self):
        """In a process that may not have more than 60 MB beside what it has."""
        program = textwrap.dedent("""
            import resource
            from owlantimony import OutOfMemoryError, Session

            with open("/proc/self/statm") as sizes:
                limit = int(sizes.read().split()[0]) * resource.getpagesize() + 60_000_000
            session, line = Session(), b'p new text "' + b"a" * 60_000 + b'"'
            resource.setrlimit(resource.RLIMIT_AS, (limit, limit))
            for count in range(100_000):
                try:
                    session.line_bytes(line)
                except OutOfMemoryError as fault:
                    assert isinstance(fault, MemoryError) and "p new text" in str(fault)
                    break
            try:
                session.line("p .")
            except OutOfMemoryError:
                session.close()
                print("refused", count > 10)
        """)
        environment = {**os.environ, "PYTHONPATH": MODULE}
        ran = subprocess.run([sys.executable, "-c", program], capture_output=True, text=True, env=environment, check=False)
        self.assertEqual((ran.stdout, ran.stderr), ("refused True\n", ""))

    def test_a_long_answer_is_whole(self):
        text = "a" * 60_000
        with Session() as session:
            for _ in range(3):
                session.line(f'p new text "{text}"')
            session.line("p new fragment")
            for number in (1, 2, 3):
                session.line(f"p append n4 n{number}")
            self.assertEqual(len(session.line("p tree n4")[0]), 180_000 + len('p ok (n4 fragment)') + 3 * len(' (n1 text "")'))
            self.assertEqual(session.line("p parent n1"), ["p ok n4"])


if __name__ == "__main__":
    unittest.main()
