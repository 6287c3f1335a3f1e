"""Planners in real terminals."""
import unittest

from support import OFFICE, OfficeTest
from terminal import Terminals, has_tmux

# from the first week to the lecture of c0109 on day 5, period 2, picked up
TO_BEST = ["v", *"c0109", "Enter", "Right", "Right", "Right", "Right", "Up", "Up", "Enter"]


@unittest.skipUnless(has_tmux(), "tmux is not installed, so nobody has looked at the screen")
class AtTerminals(OfficeTest):
    def setUp(self):
        super().setUp()
        self.terminals = Terminals(self.environment)
        self.addCleanup(self.terminals.end)

    def sit_down(self, day, planner, *words):
        return self.terminals.open([OFFICE, "sit", self.path(day), str(planner), *words])

    def sees(self, terminal, *wanted):
        for text in wanted:
            self.assertIn(text, terminal.wait(text))
