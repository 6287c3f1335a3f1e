"""The harness of all tests that are methods of unittest classes: a plugin of pytest.

A test needs nothing of this file: a module `test_*.py` in tests/client, tests/web or tests/data
with unittest classes is run as it is. What is done here for each of them:

- Helpers are found: tests, tests/client and tools are on the path.
- It is marked by what it needs: `browser` (a server of seats, a browser), `terminal` (tmux), `slow`
  (drawn days). So `client.py -m "not terminal"` leaves some out.
- One that hangs is broken off, and has failed.
- One that has failed is run once more, by itself and at the end. Both runs are printed, so that it
  is seen which kind of fault it is; the second one counts for nothing.
"""
import collections
import os
import pathlib
import signal
import sys
import traceback

import pytest
from _pytest.runner import runtestprotocol
from _pytest.unittest import TestCaseFunction

HERE = pathlib.Path(__file__).resolve().parent
sys.path.insert(0, str(HERE.parent / "tools"))
# behind the folder of the tests themselves, since there are helpers of the same names
sys.path += [str(HERE), str(HERE / "client")]
# seconds that a test may take, and between two signals to one that takes longer
PATIENCE = 12 * int(os.environ.get("PATIENCE", "30"))
AGAIN = 20
MARKS = {"WebTest": "browser", "AtTerminals": "terminal"}
# what a module has that plays drawn days: how many, or how many acts in each
DRAWN = ("DRAWS", "DAYS", "ACTS")


class TooLate(Exception):
    """A test hangs."""


def too_late(*_):
    raise TooLate(f"the test did not end within {PATIENCE} seconds")


def pytest_configure(config):
    signal.signal(signal.SIGALRM, too_late)
    config.pluginmanager.register(Ends(), "ends")


def pytest_collection_modifyitems(items):
    for item in items:
        marks = {MARKS.get(base.__name__) for base in getattr(item.cls, "__mro__", ())}
        if any(hasattr(item.module, name) for name in DRAWN):
            marks.add("slow")
        for mark in marks - {None}:
            item.add_marker(mark)


def watch():
    """A step of a test has so much time. It is broken off then, and again if it hangs on."""
    signal.setitimer(signal.ITIMER_REAL, PATIENCE, AGAIN)
    yield
    signal.setitimer(signal.ITIMER_REAL, 0)


@pytest.hookimpl(hookwrapper=True)
def pytest_runtest_setup():
    yield from watch()


@pytest.hookimpl(hookwrapper=True)
def pytest_runtest_call():
    yield from watch()


@pytest.hookimpl(hookwrapper=True)
def pytest_runtest_teardown():
    yield from watch()


def add_sub_test(self, _, part, fault):
    """A part of a test, `with self.subTest(..)`, has ended; behind a bad one the others go on."""
    if fault is None:
        return
    if not self.__dict__.get("_excinfo"):
        self.addFailure(part, fault)
    text = "".join(traceback.format_exception(*fault))
    self.add_report_section("call", "part", f"{part.id()}\n{text}")


TestCaseFunction.addSubTest = add_sub_test
TestCaseFunction.failfast = False


def name_of(test):
    """A test as it is named in words of a part, `test_day.Day.test_cut`."""
    path, *rest = test.split("::")
    return ".".join([pathlib.Path(path).stem, *rest])


def text_of(reports):
    """What has failed in the steps of a test, with what it printed."""
    texts = [report.longreprtext for report in reports if report.failed]
    return "\n".join(texts + [text for report in reports[-1:] for _, text in report.sections])


class Ends:
    """What each test has come to."""

    def __init__(self):
        self.passed, self.skipped = set(), {}
        # the first line of each fault, and what came of the second run
        self.failed, self.again = {}, {}

    def take(self, report):
        """Takes a step of a test, or of reading its module."""
        name = name_of(report.nodeid)
        if report.failed:
            lines = report.longreprtext.splitlines() or [""]
            why = next((line[2:] for line in lines if line.startswith("E ")), lines[-1])
            self.failed.setdefault(name, why.strip())
        elif report.skipped:
            self.skipped[name] = report.longrepr[2].replace("Skipped: ", "", 1)
        elif report.when == "call":
            self.passed.add(name)

    def pytest_collectreport(self, report):
        if report.failed:
            self.take(report)

    def pytest_runtest_logreport(self, report):
        self.take(report)

    @pytest.hookimpl(hookwrapper=True)
    def pytest_runtestloop(self, session):
        """Runs all, and then each that has failed once more, by itself."""
        yield
        for item in session.items:
            if name_of(item.nodeid) in self.failed:
                # (what is left of the first run would be taken for a fault of the second)
                item.__dict__.pop("_excinfo", None)
                self.again[name_of(item.nodeid)] = runtestprotocol(item, log=False)

    def pytest_terminal_summary(self, terminalreporter):
        """Prints the second runs, below the first ones, and what has become of all."""
        write = terminalreporter.write_line
        for name, reports in self.again.items():
            is_bad = any(report.failed for report in reports)
            write(f"the second run of {name}: {'failed' if is_bad else 'passed'}")
            if is_bad:
                write(text_of(reports))
        for why, count in sorted(collections.Counter(self.skipped.values()).items()):
            write(f"{count} skipped: {why}")
        for name, why in self.failed.items():
            write(f"FAILED: {name}: {why[:300]}")
        alone = [name for name, reports in self.again.items() if not any(r.failed for r in reports)]
        if alone:
            write(f"{len(alone)} failed, then passed by themselves: {', '.join(alone)}")

    def pytest_unconfigure(self):
        print(f"{len(self.passed - {*self.failed})} passed, {len(self.failed)} failed", flush=True)
