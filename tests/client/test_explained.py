"""What the program says of a file, as a person reads it."""
import contextlib
import io
import time
import unittest

from support import OfficeTest

from office.day.file_faults import explained
from office.day.program import output, run_on_files

CODE = "timedesk: solution S4 2\n"
PLACE = "plan.sol:1:5: S4: no room r99\n"


class Explained(unittest.TestCase):
    def test_a_code_whose_place_is_said(self):
        self.assertEqual(explained(CODE + PLACE), PLACE)
        before = "timedesk: unproved build\n"
        self.assertEqual(explained(before + CODE + PLACE + "x"), before + PLACE + "x")
        self.assertEqual(explained(CODE + PLACE + CODE + PLACE), PLACE + PLACE)

    def test_another_line_stays(self):
        for said in (
            "",
            CODE,
            CODE[:-1],
            PLACE,
            PLACE + CODE,
            CODE + "timedesk: no memory\n",
            CODE + PLACE.replace("S4", "S3"),
            CODE + "plan.sol:1: S4: no room r99\n",
            "timedesk: opening 2 clash alg\n" + PLACE,
            "timedesk: set aside alg A 0 0 barred\ntimedesk: no minutes: what is committed ..\n",
        ):
            self.assertEqual(explained(said), said)

    def test_a_copy_has_the_name_of_what_was_copied(self):
        names = {"day/start.sol": "plan.sol", "day/instance.ctt": "college.ctt"}
        other = ":3:1: I3: expected Rooms:, found day/start.sol\n"
        for copied, given in (
            (CODE + "day/start.sol:1:5: S4: no room r99\n", PLACE),
            (f"day/instance.ctt{other}", f"college.ctt{other}"),
            ("timedesk: too long day/start.sol\n", "timedesk: too long plan.sol\n"),
            ("timedesk: cannot read day/start.sol\n", "timedesk: cannot read plan.sol\n"),
        ):
            self.assertEqual(explained(copied, names), given)
        for said in (
            "timedesk: cannot read other/day/start.sol\n",
            "day/start.solution:1:1: S3: no course x\n",
        ):
            self.assertEqual(explained(said, names), said)


class NoSignals:
    """No signal comes."""

    def check(self):
        pass

    def wait(self, seconds):
        time.sleep(0.01)


class Asked(OfficeTest):
    """A program that says the words that it was given, and a fault."""

    def setUp(self):
        super().setUp()
        text = f"#!/bin/sh\necho $*\nprintf '{CODE}{PLACE}' >&2\nexit 1\n"
        self.words = [self.write("program", text.replace("\n'", "\\n'"), 0o755), "check", "a"]

    def heard(self, run, *more, **named):
        """What a call answers, and what the office says meanwhile."""
        said = io.StringIO()
        with contextlib.redirect_stderr(said):
            return run(*more, **named), said.getvalue()

    def test_a_command_that_prints(self):
        printed = b"check a --point\n"
        self.assertEqual(self.heard(output, self.words), ((1, printed), PLACE))
        self.assertEqual(self.heard(output, self.words, quiet=True), ((1, printed), ""))

    def test_a_command_that_signals_end(self):
        path = self.path("printed")
        with open(path, "wb") as file:
            names = {"plan.sol": "monday.sol"}
            found = self.heard(run_on_files, NoSignals(), self.words, names, stdout=file)
        self.assertEqual(found, (1, PLACE.replace("plan", "monday")))
        with open(path) as file:
            self.assertEqual(file.read(), "check a --point\n")


if __name__ == "__main__":
    unittest.main()
