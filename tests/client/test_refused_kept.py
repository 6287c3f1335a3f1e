"""Edits that a redo could not make again, of which nobody has read it before the desk died."""
import os
import signal

from support import SMALL, SMALL_SOL, OfficeTest, make_edit

from office.seat.seat_log import read_past


class Kept(OfficeTest):
    def refused(self):
        """A draft of two edits that was made again, of which one was refused."""
        self.office_process = self.open("day", SMALL, "2", "--start", SMALL_SOL)
        anna = self.planning("day", 0)
        ben = self.planning("day", 1, "ben")
        for edit in ("move geo 0 1 A 1 1", "drop top 0 2"):
            self.assertTrue(make_edit(anna, edit), edit)
        self.assertTrue(make_edit(ben, "drop geo 0 1"))
        ben.commit()
        anna.commit()
        self.assertTrue(anna.ended())
        self.assertEqual(len(anna.redo()), 1)
        ben.seat.go()
        return anna

    def edits(self):
        return [str(edit) for edit in read_past(self.path("day/0.log")).unfinished()]

    def test_desk_dies(self):
        anna = self.refused()
        self.assertEqual(self.edits(), ["drop top 0 2", "move geo 0 1 A 1 1"])
        os.kill(self.desk_of("day"), signal.SIGKILL)
        self.office_process.wait(20)
        self.leave(anna.seat)
        self.assertEqual(self.edits(), ["drop top 0 2", "move geo 0 1 A 1 1"])
        office = self.start("open", self.path("day"))
        while "open, seats 0 to " not in office.stderr.readline():
            self.assertIsNone(office.poll())
        self.sit("day", 0, "")
        self.assertIn("move geo 0 1 A 1 1", self.edits())

    def test_read(self):
        """Whoever does something else has read it."""
        anna = self.refused()
        anna.undo()
        self.assertEqual(self.edits(), [])
        anna.abandon()
        self.assertEqual(self.edits(), [])
