"""The harness of the tests: what has failed is run once more and has failed, and nothing breaks off
the others."""
import importlib.util
import os
import subprocess
import sys
import tempfile
import textwrap
import unittest

from support import HERE

# what the tests share: how often each has been run
COUNTED = """
import os, signal, time, unittest

def count(name):
    with open(os.path.join(os.environ["ROOM"], name), "a+") as file:
        file.write("x")
        file.seek(0)
        return len(file.read())
"""
# the harness for tests that stand elsewhere, with less patience
RUN = """
import sys
sys.path.insert(0, {tests!r})
import harness, pytest
harness.PATIENCE, harness.AGAIN = {patience}, 1
config = ["-c", {tests!r} + "/pytest.ini", "--rootdir", {room!r}]
sys.exit(pytest.main([*config, "-p", "harness", {room!r}]))
"""


@unittest.skipUnless(importlib.util.find_spec("pytest"), "pytest is not installed")
class Runner(unittest.TestCase):
    def run_these(self, text, patience=60):
        """Runs tests that are written here; what is printed, and how often each was run."""
        with tempfile.TemporaryDirectory() as room:
            with open(os.path.join(room, "test_drawn.py"), "w") as file:
                file.write(COUNTED + textwrap.dedent(text))
            run = RUN.format(tests=os.path.join(HERE, "tests"), room=room, patience=patience)
            told = {**os.environ, "ROOM": room, "VERBOSE": ""}
            done = subprocess.run(
                [sys.executable, "-B", "-c", run],
                capture_output=True,
                text=True,
                env=told,
                timeout=120,
            )
            self.assertEqual((done.returncode, done.stderr), (1, ""), done.stdout)
            counts = {}
            for name in set(os.listdir(room)) - {"test_drawn.py"}:
                counts[name] = os.path.getsize(os.path.join(room, name))
            return done.stdout, counts

    def test_each_end(self):
        """Passed, failed once, failed twice, skipped; the faults of both runs are printed."""
        printed, counts = self.run_these(
            """
            class One(unittest.TestCase):
                def test_good(self):
                    count("good")
                def test_once(self):
                    self.assertEqual(count("once"), 2, "the first fault")
                def test_bad(self):
                    self.fail(f"fault {count('bad')}")
                def test_parts(self):
                    for part in range(3):
                        with self.subTest(part=part):
                            self.assertNotEqual(count("parts"), 2, "a part")
                @unittest.skip("lacking")
                def test_skipped(self):
                    count("skipped")
            """
        )
        self.assertEqual(counts, {"good": 1, "once": 2, "bad": 2, "parts": 6})
        lines = printed.split("\n")
        name = "test_drawn.One.test_"
        for fault in ("the first fault", "fault 1", "fault 2"):
            self.assertIn(fault, printed)
        self.assertNotIn("During handling", printed)
        self.assertIn("1 skipped: lacking", lines)
        self.assertIn(f"FAILED: {name}bad: AssertionError: fault 1", lines)
        self.assertIn(f"the second run of {name}bad: failed", lines)
        self.assertIn(f"the second run of {name}once: passed", lines)
        self.assertIn(f"2 failed, then passed by themselves: {name}once, {name}parts", lines)
        self.assertEqual(lines[-2:], ["1 passed, 3 failed", ""])

    def test_class(self):
        """What is done once for a class is done again, for each of its tests alone."""
        printed, counts = self.run_these(
            """
            class One(unittest.TestCase):
                @classmethod
                def setUpClass(cls):
                    if count("begun") == 1:
                        raise OSError("not yet")
                def test_one(self):
                    count("one")
                def test_other(self):
                    count("other")

            class Other(unittest.TestCase):
                def test_other(self):
                    count("last")
            """
        )
        self.assertEqual(counts, {"begun": 3, "one": 1, "other": 1, "last": 1})
        self.assertIn("OSError: not yet", printed)
        self.assertTrue(printed.endswith("\n1 passed, 2 failed\n"), printed)

    def test_hang(self):
        """A test that hangs is broken off, also where it ends what it has begun."""
        printed, counts = self.run_these(
            """
            class One(unittest.TestCase):
                def test_hang(self):
                    self.addCleanup(self.end, count("hang"))
                    if count("other") == 1:
                        time.sleep(100)
                def end(self, number):
                    if number == 1:
                        time.sleep(100)
                def test_last(self):
                    count("last")
            """,
            patience=2,
        )
        self.assertEqual(counts, {"hang": 2, "other": 2, "last": 1})
        # in the test, in what it ends, and in the line that names it
        self.assertEqual(printed.count("TooLate: the test did not end within"), 3)
        self.assertTrue(printed.endswith("\n1 passed, 1 failed\n"), printed)

    def test_thrown_past_all(self):
        """What is thrown where nobody catches it fails its test, and those behind it are run."""
        printed, counts = self.run_these(
            """
            class One(unittest.TestCase):
                @classmethod
                def setUpClass(cls):
                    cls.addClassCleanup(count, "ended")
                def run(self, result=None):
                    super().run(result)
                def test_a(self):
                    count("a")
                def test_b(self):
                    self.addCleanup(count, "cleaned")
                    if count("b") == 1:
                        self._outcome = None
                        self.doCleanups = None
                def test_c(self):
                    count("c")
            """
        )
        self.assertEqual({name: counts[name] for name in "abc"}, {"a": 1, "b": 2, "c": 1})
        self.assertGreaterEqual(counts["ended"], 2)
        self.assertIn("1 failed, then passed by themselves: test_drawn.One.test_b\n", printed)
        self.assertTrue(printed.endswith("\n2 passed, 1 failed\n"), printed)
