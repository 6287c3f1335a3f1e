"""Minutes that cannot be written any more: what each screen says."""
import os

from support import FAKE, PROGRAM, SMALL, SMALL_SOL, OfficeTest, make_edit, said, wait_until
from test_day import LIMITED
from two_screens import text_of

from office.seat.answers import Said
from office.terminal.board import Board
from office.work.week import View


class Failing(OfficeTest):
    """Minutes that cannot be written any more."""

    def fill(self):
        """Two seats, of which the first has been told that its commit was not written."""
        self.environment["TIMEDESK"] = self.write(
            "limited", LIMITED.format(program=PROGRAM).replace("600, 600", "40, 40"), 0o755
        )
        self.open("day", SMALL, "2", "--start", SMALL_SOL)
        anna, ben = [Board(self.planning("day", planner)) for planner in (0, 1)]
        for board in (anna, ben):
            board.begin()
            text_of(board)
        for edit in ("drop geo 1 2", "drop top 0 2", "drop geo 0 1"):
            make_edit(anna.planning, edit)
            self.commit(anna)
            if "Not written" in text_of(anna):
                return anna, ben
        self.fail("the minutes were written")

    def check(self, board):
        """What is seen is what the minutes lead to."""
        text = text_of(board)
        self.assertIn("Nothing can be committed any more", text)
        entries = len(board.planning.minutes.entries)
        cost = self.office("status", self.path("day"))[1].split("cost now")[1].split()[0]
        self.assertIn(f"cost {cost}: ", text)
        self.assertIn(f"{entries} draft", text)
        for course in ("geo", "top", "alg"):
            board.show_view(View("course", course))
            text_of(board)
            self.assertEqual(
                len(board.work.lectures()), len(board.planning.known.newest.of_course(course))
            )
        self.assertEqual(said(board.planning.alarm), "")

    def test_every_seat_says_so(self):
        anna, ben = self.fill()
        self.assertTrue(ben.tick())
        self.check(anna)
        self.check(ben)
        self.assertIn("minutes cannot be written", self.office("status", self.path("day"))[1])
        ben.press("enter")
        self.assertIsNone(ben.work.carry)

    def test_also_where_no_file_can_tell_it(self):
        _, ben = self.fill()
        os.remove(self.path("day/failing"))
        for course in ("geo", "top", "alg"):
            ben.show_view(View("course", course))
        self.check(ben)
        ben.planning.seat.go()
        ben = Board(self.planning("day", 1))
        ben.begin()
        self.check(ben)

    def test_slow_disk(self):
        """Minutes that come late were not failing."""
        self.environment["TIMEDESK"] = FAKE
        self.environment["FAULT"] = "later"
        self.open("day", SMALL, "2", "--start", SMALL_SOL)
        anna, ben = [Board(self.planning("day", planner)) for planner in (0, 1)]
        for board in (anna, ben):
            board.begin()
            text_of(board)
        make_edit(anna.planning, "drop geo 1 2")
        self.commit(anna)
        ben.show_view(View("course", "geo"))
        text_of(ben)
        self.assertTrue(wait_until(ben.tick))
        text = text_of(ben)
        self.assertNotIn("Nothing can be committed", text)
        self.assertEqual(len(ben.work.lectures()), 1)
        self.assertTrue(make_edit(ben.planning, "drop geo 0 1"))
        self.assertEqual(said(ben.planning.alarm), "")

    def test_no_log_either(self):
        anna, _ = self.fill()
        full = os.open("/dev/full", os.O_WRONLY)
        os.dup2(full, anna.planning.seat.log.end)
        os.close(full)
        anna.planning.seat.log.noted("x")
        anna.planning._turned_down(Said.NOT_WRITTEN)
        self.assertIn("on no disk", said(anna.planning))
        self.assertNotIn("in the log", said(anna.planning))
        anna.planning.seat.waiting.append("drop geo 1 2")
        lines = "\n".join(map(said, anna.work.drafting.left()))
        self.assertNotIn("in the log", lines)
        self.assertIn("write them down", lines)
