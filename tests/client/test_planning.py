"""A planner's work at a seat, without a terminal."""
import os
import signal

from support import (
    SMALL,
    SMALL_SOL,
    SPRING,
    SPRING_SOL,
    OfficeTest,
    lines_of,
    make_edit,
    said,
    wait_until,
)

from office.day.lecture import Lecture
from office.past.earlier_days import Earlier
from office.seat.seat import DeskEnded
from office.terminal.board import Board
from office.work.carry import MOVE, PLACE, SWAP, Carry
from office.work.week import View, cells_of

BEST = "move c0109 4 1 r04 4 3"
# as it is said where the old room is not known
TOLD = "c0109: day 5, period 2 -> day 5, period 4, r04"


class Planners(OfficeTest):
    def two(self):
        """Two planners at spring."""
        self.office_process = self.open("day", SPRING, "2", "--start", SPRING_SOL)
        return self.planning("day", 0, "anna"), self.planning("day", 1, "ben")

    def look_around(self, planning):
        """Everything that a screen looks at."""
        board = Board(planning)
        for kind in ("curriculum q008", "teacher t005", "room r04", "course c0109"):
            board.show_view(View(*kind.split()))
            board.rows(24, 80)
        for lecture in planning.known.present().of_course("c0109"):
            board.set_cursor(lecture.slot)
            board.press("enter")
            board.rows(24, 80)
            board.press("escape")
            board.press("s")
            board.rows(24, 80)
            board.press("escape")

    def test_looks_are_no_part_of_a_draft(self):
        anna, ben = self.two()
        self.look_around(anna)
        self.assertFalse(anna.is_open)
        self.assertTrue(make_edit(anna, BEST))
        self.look_around(anna)
        self.assertTrue(make_edit(ben, "swap c0110 4 2 c0014 4 2"))
        ben.commit()
        self.assertIn("Committed as draft 1", said(ben))
        self.assertTrue(anna.tick())
        self.look_around(anna)
        anna.commit()
        self.assertIn("Committed as draft 2", said(anna))
        with open(self.path("day/minutes")) as file:
            minutes = file.read()
        self.assertEqual(
            minutes, f"entry 1 1\nswap c0110 4 2 c0014 4 2\ndone\nentry 0 1\n{BEST}\ndone\n"
        )
        self.assertEqual((said(anna.alarm), said(ben.alarm)), ("", ""))

    def test_stale_and_redo(self):
        anna, ben = self.two()
        for edit in (BEST, "reroom c0049 r04 0 0", "drop c0001 1 2"):
            self.assertTrue(make_edit(anna, edit), said(anna))
        make_edit(ben, "move c0109 4 1 r09 4 2")
        ben.commit()
        anna.tick()
        self.assertEqual(str(anna.stale_preview), "course c0109")
        board = Board(anna)
        self.commit(board)
        text = "\n".join(row[0][0] for row in board.rows(24, 80))
        self.assertIn("Your draft is stale: nothing is lost", text)
        self.assertIn("draft 1, ben, ", text)
        self.assertIn("  c0109: day 5, period 2, r01 -> day 5, period 3, r09", text)
        ended = [BEST, "reroom c0049 r04 0 0", "drop c0001 1 2"]
        self.assertEqual(lines_of(anna.seat.state.ended), ended)
        board.press("r")
        text = "\n".join(row[0][0] for row in board.rows(24, 80))
        self.assertIn("2 of 3 edits made again, none committed yet.", text)
        self.assertIn(f"1. {TOLD}: no lecture of c0109 stands", text)
        self.assertEqual(len(anna.minutes.entries), 1)
        self.assertEqual(lines_of(anna.edits()), ["reroom c0049 r04 0 0", "drop c0001 1 2"])
        # what was refused stays to be seen, also after one goes away
        anna.seat.go()
        anna = self.planning("day", 0, "anna")
        board = Board(anna)
        board.press("e")
        text = "\n".join(row[0][0] for row in board.rows(24, 100))
        self.assertIn("2. c0001: taken out of day 2, period 3, r14", text)
        self.assertIn(f"1. {TOLD}: no lecture of c0109 stands", text)
        board.press("escape")
        self.commit(board)
        self.assertIn("Committed as draft 2: 2 edits", said(anna))
        self.assertEqual(said(anna.alarm), "")

    def test_stale_edits_are_not_left_behind(self):
        """Who goes on after a stale draft is asked first what becomes of its edits."""
        anna, ben = self.two()
        make_edit(anna, BEST)
        make_edit(ben, "move c0109 4 1 r09 4 2")
        ben.commit()
        anna.commit()
        self.assertFalse(make_edit(anna, "drop c0001 1 2"))
        self.assertIn("r makes them again, a gives them up", said(anna))
        anna.seat.go()
        anna = self.planning("day", 0, "anna")
        self.assertEqual(lines_of(anna.ended()), [BEST])
        self.assertEqual(said(anna.redo()[0]).rsplit(":", 1)[0], f"1. {TOLD}")
        anna.abandon()
        self.assertTrue(make_edit(anna, "move c0109 3 2 r04 4 3"))
        make_edit(ben, "drop c0109 3 2")
        ben.commit()
        anna.commit()
        board = Board(anna)
        for key in ("escape", "a", "y"):
            board.press(key)
        self.assertEqual(lines_of(anna.ended()), [])
        self.assertTrue(make_edit(anna, "drop c0001 1 2"))
        self.assertEqual(said(anna.alarm), "")

    def test_undo(self):
        anna, _ = self.two()
        total = sum(anna.costs().values())
        make_edit(anna, BEST)
        make_edit(anna, "drop c0001 1 2")
        self.assertEqual(anna.missing(), {"c0001": 1})
        anna.undo()
        self.assertEqual((anna.missing(), lines_of(anna.edits())), ({}, [BEST]))
        anna.undo()
        anna.undo()
        self.assertEqual(said(anna), "No edit is left to undo.")
        self.assertEqual(sum(anna.costs().values()), total)
        anna.commit()
        self.assertIn("no edits", said(anna))
        anna.abandon()
        self.assertFalse(anna.is_open)

    def test_taken_back_by_hand(self):
        """An edit that is itself the next inverse takes the last one back, and the desk, the screen
        and the log agree on what is left; also after one goes away, and after a redo."""
        anna, ben = self.two()
        for edit in (BEST, "drop c0001 1 2", "place c0001 r14 1 2"):
            make_edit(anna, edit)
        self.assertEqual(lines_of(anna.edits()), [BEST])
        anna.seat.go()
        anna = self.planning("day", 0)
        self.assertEqual(lines_of(anna.edits()), [BEST])
        make_edit(anna, "reroom c0049 r04 0 0")
        anna.undo()
        self.assertEqual(lines_of(anna.edits()), [BEST])
        make_edit(anna, "drop c0001 1 2")
        make_edit(ben, "drop c0001 1 2")
        ben.commit()
        anna.commit()
        self.assertIn("Stale", said(anna))
        # the desk counts all that was accepted, also what was taken back
        self.assertEqual([said(line).split(".")[0] for line in anna.redo()], ["2"])
        self.assertEqual(lines_of(anna.edits()), [BEST])
        anna.undo()
        anna.undo()
        self.assertEqual((said(anna), lines_of(anna.edits())), ("No edit is left to undo.", []))
        self.assertEqual((said(anna.alarm), said(ben.alarm)), ("", ""))

    def test_goes_away_and_comes_back(self):
        anna, ben = self.two()
        total = sum(anna.costs().values())
        make_edit(anna, BEST)
        make_edit(anna, "reroom c0049 r04 0 0")
        anna.undo()
        anna.seat.go()
        make_edit(ben, "swap c0110 4 2 c0014 4 2")
        ben.commit()
        anna = self.planning("day", 0, "anna")
        self.assertEqual(said(anna), "Your draft is as you left it: 1 edit.")
        self.assertEqual((lines_of(anna.edits()), anna.base_total, anna.accepted_count()), ([BEST], total, 1))
        cells = cells_of(anna, View("course", "c0109"))
        self.assertTrue(cells[4, 1].is_mine and cells[4, 3].is_mine and not cells[4, 3].is_others)
        self.assertTrue(cells_of(anna, View("course", "c0014"))[4, 2].is_others)
        anna.commit()
        self.assertIn("Committed as draft 2", said(anna))

    def test_offers(self):
        anna, _ = self.two()
        lecture = Lecture("c0109", "r01", 4, 1)
        carry = Carry(anna, MOVE, "c0109", lecture)
        self.assertEqual(carry.best()[0], (4, 3))
        self.assertEqual(said(carry.notice((4, 3))), "-257 in r04 (1 of 3; Tab for the next)")
        self.assertEqual(said(carry.notice((0, 0))), "cannot stand there: c0109 is unavailable then")
        self.assertEqual(
            said(carry.notice((3, 0))), "cannot stand there: its teacher t067 teaches c0120 then"
        )
        carry.begin_at((4, 1))
        self.assertTrue(carry.is_in_place((4, 1)))
        swap = Carry(anna, SWAP, "c0109", lecture)
        self.assertEqual(said(swap.notice((4, 1))).split(" (")[0], "-258 with c0113")
        make_edit(anna, "drop c0109 4 1")
        place = Carry(anna, PLACE, "c0109", None)
        self.assertEqual(place.best()[0], (4, 3))
        self.assertEqual(len(anna.minutes.entries), 0)

    def test_others_at_the_same_seat(self):
        """A line at the seat of which the client does not know: it reads everything anew, and says
        so."""
        anna, ben = self.two()
        make_edit(anna, BEST)
        with open(self.path("day/0.in"), "w") as lines:
            lines.write("drop c0109 4 3\n")
        self.assertTrue(wait_until(lambda: anna.seat.read(1) == "done"))
        make_edit(anna, "reroom c0049 r04 0 0")
        self.assertEqual(said(anna.alarm), "")
        anna._cache.clear()
        self.assertEqual(
            [one.slot for one in anna.lectures("course c0109")], [(0, 3), (1, 4), (2, 4), (3, 2)]
        )
        self.assertIn("everything was read anew", said(anna.alarm))
        self.assertIsNone(anna.known.present().room_at("c0109", (4, 3)))

    def test_desk_is_killed(self):
        anna, ben = self.two()
        make_edit(ben, "swap c0110 4 2 c0014 4 2")
        ben.commit()
        make_edit(anna, BEST)
        make_edit(anna, "drop c0001 1 2")
        os.kill(self.desk_of("day"), signal.SIGKILL)
        with self.assertRaises(DeskEnded):
            make_edit(anna, "reroom c0049 r04 0 0")
        board = Board(anna)
        board.desk_ended("The desk has ended")
        text = "\n".join(row[0][0] for row in board.rows(24, 80))
        self.assertIn("Your accepted drafts are on the disk: none.", text)
        self.assertIn(TOLD, text)
        anna.seat.go()
        ben.seat.go()
        self.office_process.wait(20)
        self.assertEqual(self.office("close", self.path("day"))[0], 0)
        self.open("next", "--after", self.path("day"))
        self.assertEqual(Earlier(self.planning("next", 1, "ben")).edits, [])
        anna = self.planning("next", 0, "anna")
        earlier = Earlier(anna)
        # the last one was sent, and may have been made
        self.assertEqual(lines_of(earlier.edits), [BEST, "drop c0001 1 2", "reroom c0049 r04 0 0"])
        self.assertEqual(earlier.take_up(), [])
        self.assertEqual(anna.edits(), earlier.edits)
        self.assertEqual(len(anna.minutes.entries), 0)
        anna.seat.go()
        self.assertEqual(Earlier(self.planning("next", 0, "anna")).edits, [])

    def test_small_from_nothing(self):
        """A timetable from nothing, by the list of what is missing."""
        self.open("day", SMALL, "1")
        anna = self.planning("day", 0)
        board = Board(anna)
        board.begin()
        for _ in range(5):
            for key in ("m", "enter", "b", "enter"):
                board.press(key)
                board.rows(24, 80)
        self.assertEqual(anna.missing(), {})
        board.press("m")
        self.assertEqual(said(anna), "No lecture is missing.")
        self.commit(board)
        self.assertIn("Committed as draft 1: 5 edits", said(anna))
        self.assertEqual(self.listed("day").count("\n"), 5)

    def test_changed_by_others(self):
        """A lecture that is picked up, and changed by somebody else meanwhile."""
        self.open("day", SMALL, "2", "--start", SMALL_SOL)
        anna, ben = self.planning("day", 0), self.planning("day", 1)
        board = Board(anna)
        board.show_view(View("course", "top"))
        board.press("enter")
        self.assertIsNotNone(board.work.carry)
        make_edit(ben, "drop top 0 2")
        ben.commit()
        board.tick()
        self.assertIsNone(board.work.carry)
        self.assertIn("Somebody has changed top", said(anna))
        self.assertEqual(anna.missing(), {"top": 1})
        # the same, if a key comes before the news
        board.show_view(View("course", "geo"))
        board.press("enter")
        make_edit(ben, "drop geo 0 1")
        ben.commit()
        anna.read_minutes()
        board.press("enter")
        self.assertEqual((board.work.carry, anna.is_open), (None, False))
        self.assertIn("Somebody has changed geo", said(anna))
