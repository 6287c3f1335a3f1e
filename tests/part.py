"""Runs a part of the tests by pytest; where that lacks, by unittest, and says so.

Words name some of its tests, as in `client.py test_day test_screen.Screens.test_names`. From the
first word with a dash on they are pytest's, as in `client.py -m "not terminal" -x`.
"""
import collections
import importlib.util
import itertools
import os
import subprocess
import sys
import unittest

sys.dont_write_bytecode = True
HERE = os.path.dirname(os.path.abspath(__file__))
# the Python for which Debian's packages are
PYTHON = "/usr/bin/python3"
LACKING = "pytest is not installed (python3-pytest): no times are told, and no test is run again"


def run_part(place):
    """Runs the tests of a folder or a file beside this one, and ends with their status."""
    words = sys.argv[1:]
    names = list(itertools.takewhile(lambda word: not word.startswith("-"), words))
    options = words[len(names) :]
    if importlib.util.find_spec("pytest") is None:
        has_pytest = [PYTHON, "-c", "import pytest"]
        if not os.path.exists(PYTHON) or subprocess.run(has_pytest, capture_output=True).returncode:
            sys.exit(by_unittest(place, names))
        os.execv(PYTHON, [PYTHON, "-B", os.path.abspath(sys.argv[0]), *words])
    import pytest

    sys.exit(pytest.main([*(path_of(place, name) for name in names or [""]), *options]))


def path_of(place, name):
    """A test as pytest names it: a path, `::Day` and `::test_cut`."""
    parts = name.split(".") if name else []
    if not place.endswith(".py") and parts:
        place = os.path.join(place, parts.pop(0) + ".py")
    return "::".join([os.path.join(HERE, place), *parts])


def by_unittest(place, names):
    """Runs tests, prints what has become of them, and answers the status to end with."""
    print(LACKING)
    folder = os.path.join(HERE, place)
    sys.path[:0] = [os.path.join(HERE, "../tools"), HERE, os.path.join(HERE, "client"), folder]
    loader = unittest.TestLoader()
    if place.endswith(".py"):
        names = [f"__main__.{name}" if name else "__main__" for name in names or [""]]
    suite = loader.loadTestsFromNames(names) if names else loader.discover(folder)
    found = unittest.TextTestRunner(stream=sys.stdout, verbosity=0).run(suite)
    for why, count in sorted(collections.Counter(why for _, why in found.skipped).items()):
        print(f"{count} skipped: {why}")
    failed = {getattr(test, "test_case", test).id() for test, _ in found.failures + found.errors}
    passed = found.testsRun - len(failed) - len(found.skipped)
    print(f"{max(0, passed)} passed, {len(failed)} failed")
    return bool(failed)
