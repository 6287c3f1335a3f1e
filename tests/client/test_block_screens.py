"""Two planners at two real screens, whose room is blocked under an open draft."""
import unittest

from at_terminals import TO_BEST
from support import OFFICE, SPRING, SPRING_SOL, OfficeTest, wait_until
from terminal import Terminals, has_tmux

from office.day.folder import Day
from office.day.parts import parts_of

LINE = "r04 is blocked on day 5: heating (ben at seat 1); 4 lectures are missing now"


@unittest.skipUnless(has_tmux(), "tmux is not installed, so nobody has looked at the screen")
class Blocked(OfficeTest):
    def setUp(self):
        super().setUp()
        self.terminals = Terminals(self.environment, columns=110)
        self.addCleanup(self.terminals.end)
        self.process = self.open("day", SPRING, "2", "--start", SPRING_SOL)
        self.anna = self.sit_down(0, "anna")
        self.ben = self.sit_down(1, "ben")
        self.sees(self.ben, "no draft open")

    def sit_down(self, planner, name):
        words = [OFFICE, "sit", self.path("day"), str(planner), "--name", name]
        return self.terminals.open(words)

    def sees(self, terminal, *wanted):
        for text in wanted:
            self.assertIn(text, terminal.wait(text))

    def test_by_a_key(self):
        """Anna's draft has a move into r04, which ben blocks from his screen."""
        anna, ben = self.anna, self.ben
        self.sees(anna, "no draft open")
        anna.press(*TO_BEST, "b", "Enter")
        self.sees(anna, "Done: c0109: day 5, period 2, r01 -> day 5, period 4, r04.")
        anna.press(":", "reroom c0049 r04 0 0", "Enter")
        self.sees(anna, "draft open: 2 edits")
        ben.press("v", "room r04", "Enter")
        self.sees(ben, "week of room r04")
        ben.press("Right", "Right", "Right", "Right", "B", "on day 5 (4", "Enter")
        self.sees(ben, "Why is it blocked? _")
        ben.press("heating", "Enter")
        self.sees(ben, "These lectures are missing now:", "stood on day 5, period 1, r04")
        self.sees(anna, "1 of 2 edits made again, none committed yet.", "r04 is blocked then: heating")
        anna.press("Enter")
        self.sees(anna, "draft open: 1 edit", "none committed.")
        ben.press("Enter")
        self.sees(ben, "blocked", "missing 4")
        anna.press("c", *"a room", "Enter")
        self.sees(anna, "Committed as draft 1: 1 edit, on the disk.")
        self.sees(ben, "1 draft accepted today")
        for terminal in (anna, ben):
            terminal.press("q")
            self.sees(terminal, "ended 0")
        status, printed, said = self.office("close", self.path("day"))
        self.assertEqual((status, said), (0, ""))
        self.assertIn("1 draft accepted in 2 parts, the audit agrees", printed)

    def test_by_a_command(self):
        """The same by who keeps the office; it is lifted from a screen."""
        self.sees(self.anna, "no draft open")
        words = ["room", "r04", "fri", "--why", "heating"]
        status, printed, said = self.office("block", self.path("day"), *words)
        self.assertEqual((status, said), (0, ""))
        self.assertEqual(len(printed.splitlines()), 5)
        self.assertIn("r04 is blocked on day 5: heating (", printed)
        for terminal in (self.anna, self.ben):
            self.sees(terminal, "r04 is blocked on day 5: heating (", "are missing now")
            terminal.press("Enter")
            self.sees(terminal, "missing 4")
        again = self.office("block", self.path("day"), "room", "r04", "5", "1")
        self.assertEqual(again[0], 1)
        self.assertRegex(again[2], r"^office: r04 is blocked on day 5: heating \(.*\) already\n$")
        self.anna.press("v", "room r04", "Enter", *["Right"] * 4, "B", "lift", "Enter")
        self.anna.press("it is warm", "Enter")
        self.sees(self.ben, "r04 is open again on day 5: it is warm (anna at seat 0).")
        self.assertTrue(wait_until(lambda: len(parts_of(Day(self.path("day")))) == 3))
        told = self.office("unblock", self.path("day"), "room", "r04")
        self.assertEqual(told, (1, "", "office: r04 is not blocked on all days\n"))
        self.assertEqual(self.office("blocks", self.path("day")), (0, "nothing is blocked\n", ""))

    def test_the_office_is_killed(self):
        """The office dies while the rules change: the screens say so, and nothing is lost."""
        self.sees(self.anna, "no draft open")
        self.anna.press(*TO_BEST, "b", "Enter")
        self.sees(self.anna, "draft open: 1 edit")
        with open(self.path("day/closures"), "a") as file:
            file.write("t\troom\tr04\t4\t*\tben\t1\theating\tblock\n")
        self.assertTrue(wait_until(lambda: not Day(self.path("day")).is_ready(), 30))
        self.process.kill()
        self.process.wait()
        self.sees(self.anna, "These edits were not accepted.")
        self.anna.press("q")
        self.sees(self.anna, "ended 3")
        status, printed, _ = self.office("close", self.path("day"), "--wait", "0")
        self.assertEqual(status, 0)
        self.assertIn("0 drafts accepted", printed)
