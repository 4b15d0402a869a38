"""Runs unit tests of the Python module on documents over the stand-in, by typed calls. Those on lines are left out, which such documents do not have."""
import os
import sys
import unittest

sys.dont_write_bytecode = True
HERE = os.path.dirname(os.path.abspath(__file__))
sys.path.insert(0, os.path.join(HERE, "..", "tests"))
import over_standin  # noqa: E402, F401

MODULES = ("test_trees", "test_attributes", "test_queries", "test_strings", "test_ranges", "test_traversal")
ON_LINES = ("test_a_document_takes_another_way_to_the_engine", "test_a_value_that_no_line_has_room_for_is_refused",
            "test_the_length_of_a_value_is_what_the_page_of_docs_says")


def tests_in(suite):
    """The tests of a suite, at any depth."""
    for each in suite:
        yield from tests_in(each) if isinstance(each, unittest.TestSuite) else [each]


class AnyLength(unittest.TestCase):
    def test_a_value_may_have_any_length(self):
        from owlantimony.dom import Document

        long = "a\u6f22\U0001f600" * 1_000_000
        with Document() as document:
            element = document.appendChild(document.createElement("p"))
            element.setAttribute("title", long)
            element.appendChild(document.createTextNode(long))
            self.assertEqual(element.getAttribute("title"), long)


def main():
    loader = unittest.defaultTestLoader
    tests = [test for test in tests_in(loader.loadTestsFromNames(MODULES)) if test.id().rpartition(".")[2] not in ON_LINES]
    tests += tests_in(loader.loadTestsFromTestCase(AnyLength))
    result = unittest.TextTestRunner(stream=sys.stdout, verbosity=0).run(unittest.TestSuite(tests))
    print(f"bindings: {result.testsRun - len(result.failures) - len(result.errors)} of {result.testsRun} tests of the Python module passed over the stand-in")
    return 0 if result.wasSuccessful() else 1


if __name__ == "__main__":
    sys.exit(main())
