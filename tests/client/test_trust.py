"""What a planner can trust: what the screen says is so, and what is committed was meant."""
import os
import re

from support import SPRING, SPRING_SOL, OfficeTest, lines_of, make_edit, said
from two_screens import BEST, Two, text_of

from office.day.commit_notes import read_commit_notes
from office.day.folder import Day
from office.terminal.board import Board


class Meant(Two):
    def test_typed_text_publishes_nothing(self):
        anna, _ = self.boards()
        make_edit(anna.planning, BEST)
        text = self.type_keys(anna, *"c0109")
        self.assertIn("Why? 0109", text)
        self.assertEqual(anna.planning.minutes.read_on(), [])
        self.assertTrue(anna.planning.is_open)
        # a name that was looked for, with the key that takes the first of a list
        self.assertIn("c0109 is a name", self.type_keys(anna, "enter"))
        self.assertEqual(anna.planning.minutes.read_on(), [])
        self.assertNotIn("is a name", self.type_keys(anna, "backspace"))
        self.type_keys(anna, "escape")
        self.go_to(anna, "course c0001", (1, 2))
        self.type_keys(anna, "x")
        self.assertEqual(anna.planning.missing(), {"c0001": 1})
        self.assertIn("It leaves lectures missing: c0001.", self.type_keys(anna, "c"))
        self.type_keys(anna, "escape", "u")
        self.assertEqual((anna.planning.missing(), lines_of(anna.planning.edits())), ({}, [BEST]))
        self.assertEqual(anna.planning.minutes.read_on(), [])

    def test_box(self):
        """Each edit in words, what the cost changes, whether it is stale; the reason is kept."""
        anna, ben = self.boards()
        make_edit(anna.planning, BEST)
        make_edit(anna.planning, "swap c0110 4 2 c0014 4 2")
        text = self.type_keys(anna, "c")
        self.assertIn("1. c0109: day 5, period 2, r01 -> day 5, period 4, r04", text)
        self.assertRegex(
            text, r"2\. c0110 \(day 5, period 3, r\d+\) <-> c0014 \(day 5, period 3, r"
        )
        self.assertRegex(text, r"Cost -\d+: capacity -\d+")
        self.assertIn("Nothing that it stands on has changed.", text)
        make_edit(ben.planning, "drop c0109 3 2")
        self.commit(ben, "a teacher is ill")
        self.assertIn("The reason is kept.", text_of(ben))
        self.assertTrue(anna.tick())
        text = text_of(anna)
        self.assertIn("Stale by now: course c0109 has changed", text)
        self.assertRegex(text, r"draft 1, ben, \d\d:\d\d \(a teacher is ill\):")
        self.assertIn("c0109: taken out of day 4, period 3, r01", text)
        self.type_keys(anna, "escape")
        self.assertTrue(anna.planning.is_open)
        notes = read_commit_notes(Day(self.path("day")))
        self.assertEqual(
            [(n.planner, n.name, n.why) for n in notes.values()], [(1, "ben", "a teacher is ill")]
        )

    def test_other_edits(self):
        """A draft that has other edits than those that were confirmed is not committed."""
        anna, _ = self.boards()
        make_edit(anna.planning, BEST)
        box = anna.work.drafting.box()
        make_edit(anna.planning, "drop c0001 1 2")
        self.assertIsNone(anna.work.drafting.commit(box.edits, ""))
        self.assertIn("other edits", said(anna.planning))
        self.assertEqual(anna.planning.minutes.read_on(), [])

    def test_other_price(self):
        """A lecture is not put down at another price than the one that was seen."""
        anna, ben = self.boards()
        self.go_to(anna, "course c0109", (4, 1))
        self.type_keys(anna, "enter", "b")
        make_edit(ben.planning, "drop c0109 0 3")
        self.commit(ben)
        text = self.type_keys(anna, "enter")
        if lines_of(anna.planning.edits()):
            # the price was the same
            self.assertEqual(lines_of(anna.planning.edits()), [BEST])
        else:
            self.assertIn("Others have changed it just now", text)

    def test_reason_that_cannot_be_written(self):
        anna, _ = self.boards()
        os.symlink("/dev/full", self.path("day/reasons"))
        make_edit(anna.planning, BEST)
        self.commit(anna, "for the dean")
        text = text_of(anna)
        self.assertIn("Committed as draft 1: 1 edit, on the disk. The reason could not be", text)
        self.assertEqual(len(anna.planning.minutes.entries), 1)
        # it is in the log, and written when it can be
        anna.planning.seat.go()
        os.remove(self.path("day/reasons"))
        self.planning("day", 0, "anna")
        self.assertEqual(read_commit_notes(Day(self.path("day")))[1].why, "for the dean")

    def test_torn_note(self):
        anna, ben = self.boards()
        make_edit(anna.planning, BEST)
        self.commit(anna, "one\tof many")
        with open(self.path("day/reasons"), "a") as file:
            file.write("7\t2026")
        make_edit(ben.planning, "drop c0001 1 2")
        self.commit(ben, "two")
        notes = read_commit_notes(Day(self.path("day")))
        self.assertEqual({n: note.why for n, note in notes.items()}, {1: "one of many", 2: "two"})


class Seen(Two):
    def test_key_acts_on_what_was_seen(self):
        anna, ben = self.boards()
        self.go_to(anna, "room r01", (4, 1))
        make_edit(ben.planning, "swap c0109 4 1 c0113 4 1")
        self.commit(ben)
        # no drawing in between
        anna.press("x")
        self.assertFalse(anna.planning.is_open)
        self.assertRegex(text_of(anna), r"ben (moved|gave) c0\d+ .*, \d\d:\d\d\.")
        self.assertIn("~", text_of(anna))
        # now it has been seen
        anna.press("x")
        self.assertEqual(lines_of(anna.planning.edits()), ["drop c0113 4 1"])

    def test_changes_of_others_without_a_draft(self):
        anna, ben = self.boards()
        text = self.go_to(anna, "course c0109", (4, 3))
        self.assertNotIn("~", text)
        make_edit(ben.planning, BEST)
        self.commit(ben)
        self.assertTrue(anna.tick())
        text = text_of(anna)
        self.assertRegex(text, r">~r04")
        self.assertRegex(text, r"ben moved c0109 here, \d\d:\d\d\.")
        anna.set_cursor((4, 1))
        self.assertRegex(text_of(anna), r"ben took c0109 away from here, \d\d:\d\d\.")
        # a draft of one's own begins from what others have left
        make_edit(anna.planning, "drop c0001 1 2")
        anna.planning.abandon()
        self.assertNotIn("~", text_of(anna))

    def test_windows_of_many_days(self):
        draw = (
            "Name: w Courses: 1 Rooms: 1 Days: 10 Periods_per_day: 12 Curricula: 0 Constraints: 0"
        )
        text = f"{draw} COURSES: c t 1 1 5 ROOMS: r 9 CURRICULA: UNAVAILABILITY_CONSTRAINTS: END."
        self.open("day", self.write("wide.ctt", text), "1")
        board = Board(self.planning("day", 0))
        board.begin()
        head = text_of(board, 24, 120).split("\n")[3]
        self.assertIn("day 8 >", re.sub(" +", " ", head))
        self.assertNotIn("<", head)
        for _ in range(9):
            board.press("right")
        head = text_of(board, 24, 120).split("\n")[3]
        self.assertIn("day 10", head)
        self.assertTrue(head.startswith("<"))
        self.assertNotIn(">", head)


class Overtaken(Two):
    def overtaken(self):
        anna, ben = self.boards()
        one = anna.planning.known.present().of_course("c0068")[0]
        make_edit(anna.planning, f"drop c0068 {one.day} {one.period}")
        anna.planning.undo()
        make_edit(ben.planning, f"drop c0068 {one.day} {one.period}")
        self.commit(ben)
        anna.tick()
        return anna

    def test_empty_draft(self):
        for key in ("c", "f"):
            with self.subTest(key=key):
                self.setUp()
                anna = self.overtaken()
                self.assertIn("course c0068 has changed; no edits here", text_of(anna, 24, 120))
                text = self.type_keys(anna, key)
                self.assertIn("had no edits left: it is closed", text)
                self.assertFalse(anna.planning.is_open)
                self.assertEqual(lines_of(anna.planning.ended()), [])
                self.assertTrue(make_edit(anna.planning, "drop c0001 1 2"))

    def test_typed_edit_opens_a_draft(self):
        anna, _ = self.boards()
        self.type_keys(anna, ":", *"swap c0110 4 2 c0014 4 2", "enter")
        self.assertEqual(lines_of(anna.planning.edits()), ["swap c0110 4 2 c0014 4 2"])


class TakenOver(Two):
    def test_draft_of_somebody_else(self):
        anna, _ = self.boards()
        make_edit(anna.planning, BEST)
        anna.planning.seat.go()
        carla = Board(self.planning("day", 0, "carla"))
        carla.begin()
        text = text_of(carla)
        self.assertIn("anna has left a draft here: go on with 1 edit?", text)
        self.assertIn("c0109: day 5, period 2, r01 -> day 5, period 4, r04", text)
        # it has to be answered
        self.type_keys(carla, "escape", "c", "enter")
        self.assertTrue(carla.planning.is_open)
        carla.press("q")
        self.assertTrue(carla.is_done)
        carla.planning.seat.go()
        carla = Board(self.planning("day", 0, "carla"))
        carla.begin()
        carla.press("y")
        self.assertRegex(
            self.office("status", self.path("day"))[1],
            r"0 +carla +\d\d:\d\d +1 edit of anna and carla",
        )
        self.commit(carla, "it was agreed")
        notes = read_commit_notes(Day(self.path("day")))
        self.assertEqual((notes[1].name, notes[1].why), ("carla", "it was agreed"))
        self.assertRegex(self.office("log", self.path("day"))[1], r"draft 1, carla at seat 0")

    def test_own_draft(self):
        anna, _ = self.boards()
        make_edit(anna.planning, BEST)
        anna.planning.seat.go()
        anna = Board(self.planning("day", 0, "anna"))
        anna.begin()
        self.assertIn("Your draft is as you left it", text_of(anna))


class Labelled(OfficeTest):
    def test_names_and_times(self):
        """The screen says names, weekdays and times, if a day has them."""
        os.mkdir(self.path("labels"))
        hours = ["8:15", "10:15", "12:15", "14:15", "16:15", "18:15"]
        days = ["Monday", "Tuesday", "Wednesday", "Thursday", "Friday"]
        rows = [
            f"{day},{period},{days[day - 1]},{hours[period - 1]},{hours[period]}"
            for day in range(1, 6)
            for period in range(1, 6)
        ]
        self.write("labels/times.csv", "\n".join(["day,period,weekday,from,to", *rows]))
        names = ["kind,code,name,short name", "course,c0109,Linear Algebra,LinAlg"]
        names += ["room,r04,Hall 2,H2", "teacher,t067,Noether,N"]
        self.write("labels/labels.csv", "\n".join(names))
        words = ["--start", SPRING_SOL, "--labels", self.path("labels")]
        self.open("day", SPRING, "1", *words)
        board = Board(self.planning("day", 0))
        board.begin()
        for key in ["v", *"algebra", "enter"]:
            board.press(key)
        text = text_of(board, 24, 120)
        self.assertIn("week of course Linear Algebra", text)
        self.assertIn("teacher Noether", text)
        self.assertRegex(text, r"\n14:15 .*r06")
        self.assertRegex(text, r"  Mon +Tue +Wed +Thu +Fri")
        board.set_cursor((4, 1))
        board.press("enter")
        text = text_of(board, 24, 120)
        self.assertIn("Cheapest: -257 in Hall 2, Fri 14:15: b goes there.", text)
        self.assertIn("-257 H2", text)
        for key in ["b", "enter", "c"]:
            board.press(key)
        text = text_of(board, 24, 120)
        wanted = "1. Linear Algebra: Fri 10:15, r01 -> Fri 14:15, Hall 2"
        self.assertIn(wanted, text)


class Findings(Two):
    def test_worst_first(self):
        anna, _ = self.boards()
        text = self.type_keys(anna, "!")
        self.assertIn("What to mend: 531 findings, 8847 points", text)
        self.assertIn("> 257 without a seat: c0109 in r01, day 2, period 5", text)
        text = self.type_keys(anna, *"c0109 5,", "enter")
        self.assertIn("week of course c0109", text)
        self.assertEqual(anna.cursor, (4, 1))
        # of the draft, if one is open
        make_edit(anna.planning, BEST)
        self.assertIn("530 findings, 8590 points", self.type_keys(anna, "!"))
        text = self.type_keys(anna, *"no points", "enter")
        self.assertIn("Gaps in days of curricula", text)
        text = self.type_keys(anna, "enter")
        self.assertIn("week of curriculum q", text)
        self.assertNotIn("read anew", text)
