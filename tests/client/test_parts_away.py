"""A draft that was left open over a change of the rules."""
from support import lines_of, make_edit
from changed_rules import MOVE, REROOM, Parts, text_of

from office.day.closure import Scope
from office.day.parts import parts_of
from office.seat.seat_log import read_past


class Away(Parts):
    """A draft that was left open, and somebody sits down after the change."""

    def leave_and_block(self):
        self.open_day()
        for edit in (MOVE, REROOM):
            make_edit(self.anna.planning, edit)
        self.anna.planning.seat.go()
        self.block()
        self.go_on(self.ben)

    def test_is_made_again(self):
        self.leave_and_block()
        printed = self.office("status", self.path("day"))[1]
        self.assertRegex(printed, r"0 +nobody +2 edits, not accepted")
        anna = self.sit_at(0, "anna")
        told = text_of(anna)
        self.assertIn("A is blocked on day 1: heating (ben at seat 1)", told)
        self.assertIn("1 of 2 edits made again, none committed yet.", told)
        self.assertIn("A is blocked then", told)
        self.assertEqual(lines_of(anna.planning.edits()), [MOVE])
        anna.planning.seat.go()
        # once is enough
        anna = self.sit_at(0, "anna")
        self.assertNotIn("made again", text_of(anna))
        self.assertEqual(lines_of(anna.planning.edits()), [MOVE])

    def test_of_somebody_else(self):
        self.leave_and_block()
        carla = self.sit_at(0, "carla")
        told = text_of(carla)
        self.assertIn("anna has left 2 edits", told)
        self.press(carla, "q")
        self.assertTrue(carla.is_done)
        carla.planning.seat.go()
        carla = self.sit_at(0, "carla")
        told = self.press(carla, "y")
        self.assertIn("1 of 2 edits made again, none committed yet.", told)
        self.assertEqual(lines_of(carla.planning.edits()), [MOVE])

    def test_broken_off_while_it_is_made(self):
        """A client that dies while it makes a draft again loses nothing of it."""
        self.leave_and_block()
        planning = self.planning("day", 0, "anna")
        self.assertEqual(lines_of(planning.seat.state.again), [MOVE, REROOM])
        planning._open_new()
        planning.seat.go()
        anna = self.sit_at(0, "anna")
        self.assertIn("1 of 2 edits made again, none committed yet.", text_of(anna))
        self.assertEqual(lines_of(anna.planning.edits()), [MOVE])

    def test_given_up(self):
        self.leave_and_block()
        planning = self.planning("day", 0, "anna")
        planning.abandon()
        self.assertEqual(read_past(self.day.log(0)).state.unfinished(), [])

    def test_a_second_change(self):
        """What was not yet made again is kept over the next change."""
        self.leave_and_block()
        self.block(Scope("room", "B", 1), "paint")
        self.go_on(self.ben)
        anna = self.sit_at(0, "anna")
        self.assertEqual(lines_of(anna.planning.edits()), [MOVE])
        self.assertEqual(len(parts_of(self.day)), 3)
