"""Runs all tests of this folder, or those of the modules that are named, and says how many there were, and by name which were skipped.

Usage: run.py [MODULE..]        (the exit status is 0 where none failed, and some were run)
"""
import os
import sys
import unittest

from owlantimony.dom.extension import engine_module


def main() -> int:
    """Run the tests, and give the exit status."""
    here = os.path.dirname(os.path.abspath(__file__))
    loader = unittest.defaultTestLoader
    suite = loader.loadTestsFromNames(sys.argv[1:]) if sys.argv[1:] else loader.discover(here)
    result = unittest.TextTestRunner(stream=sys.stdout, verbosity=0).run(suite)
    for test, reason in result.skipped:
        print(f"bindings: skipped, as {reason}: {test.id()}")
    faults = len(result.failures) + len(result.errors)
    passed = result.testsRun - faults - len(result.skipped)
    over = "in Python alone" if engine_module is None else "with its extension"
    print(f"bindings: {passed} tests of the Python module {over} passed, {faults} failed, {len(result.skipped)} skipped")
    return 0 if result.wasSuccessful() and passed > (5 if sys.argv[1:] else 50) else 1


if __name__ == "__main__":
    sys.exit(main())
