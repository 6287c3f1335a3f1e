"""Answers, logs and minutes by themselves, and what a client keeps of them."""
import copy

from support import SMALL, SMALL_SOL, OfficeTest, lines_of
from test_known import Drawn

from plain_instance import lectures_of
from plain_rules import Week
from office.day.edits import Edit
from office.day.instance import read_instance, read_solution
from office.day.minutes import Minutes
from office.day.timetable import Timetable
from office.seat.answers import (
    BadLine,
    Committed,
    Fault,
    LeftOut,
    MissingAre,
    NotAllowed,
    Offer,
    Other,
    PriceIs,
    PricesAre,
    Redone,
    Row,
    Said,
    Stale,
    Status,
    Undone,
    offers_in,
    read_answer,
)
from seat_states import FedState, KnownState


def ends_of(edit):
    """Where lectures stand after an edit, and where before it, in the order of its inverse."""
    if edit.other:
        return [(edit.course, edit.now), (edit.other, edit.was)], edit.before()
    return edit.after(), edit.before()


class Reading(OfficeTest):
    """Answers and logs by themselves."""

    def test_answers(self):
        for text, kind, facts in (
            ("refused clash geo", NotAllowed, {"fault": Fault("clash", "geo")}),
            ("refused full", NotAllowed, {"fault": Fault("full")}),
            ("committed 12", Committed, {"number": 12}),
            ("stale course geo", Stale, {"row": Row("course", "geo")}),
            ("stale slot 0 12", Stale, {"row": Row("slot", "", (0, 12))}),
            ("draft 3 1 fresh", Status, {"edits": 3, "since": 1, "stale": None}),
            ("draft 3 1 stale slot 2 0", Status, {"edits": 3, "stale": Row("slot", "", (2, 0))}),
            ("done drop a 0 0", Undone, {"edit": Edit.drop("a", (0, 0))}),
            ("price -3", PriceIs, {"price": -3}),
            ("missing 1 geo 2", MissingAre, {"courses": {"geo": 2}}),
            ("bad line 2 x", BadLine, {}),
        ):
            answer = read_answer(text)
            self.assertEqual((type(answer), str(answer)), (kind, text))
            self.assertEqual({name: getattr(answer, name) for name in facts}, facts)
        for text in ("done", "opened", "no draft", "nothing to redo", "no memory", "left"):
            self.assertEqual(read_answer(text), Said(text))
        for text in ("committed", "done x", "draft 1", "price x", "stale", "redone", "", "refused"):
            self.assertEqual(type(read_answer(text)), Other, text)

    def test_long_answers(self):
        self.assertEqual(
            offers_in(read_answer("prices 2 -4 move geo 1 2 A 1 1 7 swap a 0 0 b 1 1")),
            [
                Offer(-4, Edit.move("geo", (1, 2), "A", (1, 1))),
                Offer(7, Edit.swap("a", (0, 0), "b", (1, 1))),
            ],
        )
        self.assertEqual(offers_in(read_answer("prices 0")), [])
        self.assertNotIsInstance(read_answer("refused full"), PricesAre)
        told = "redone 1 of 3 refused 2 move c 4 1 r 4 3 roomtaken d refused 3 drop e 0 0 notplaced"
        refused = [
            LeftOut(2, Edit.move("c", (4, 1), "r", (4, 3)), Fault("roomtaken", "d")),
            LeftOut(3, Edit.drop("e", (0, 0)), Fault("notplaced")),
        ]
        redone = read_answer(told)
        self.assertEqual(redone, Redone(told, 1, 3, refused))
        self.assertEqual(redone.made_of([1, 2, 3]), [1])
        self.assertNotIsInstance(read_answer("nothing to redo"), Redone)

    def test_edits(self):
        """A line is an edit or none, and an edit is written as the desk writes it."""
        for line in (
            "place geo A 0 1",
            "move geo 0 1 B 1 12",
            "swap a 0 0 b 1 1",
            "reroom geo B 0 1",
            "drop geo 0 1",
        ):
            edit = Edit.parse(line)
            self.assertEqual(str(edit), line)
            self.assertEqual(edit.inverse("C").inverse(edit.room), edit)
            self.assertTrue(edit.inverse().may_be(edit.inverse("C")))
            self.assertEqual((edit.inverse("C").before(), edit.inverse().after()), ends_of(edit))
        self.assertEqual(Edit.parse("swap a 0 0 b 1 1").courses(), ["a", "b"])
        self.assertEqual(str(Edit.parse("  drop a 00 01")), "drop a 0 1")
        wrong = ("", "drop a 0", "drop a 0 0 0", "drop a 0 x", "price drop a 0 0", "move a 0 0")
        for line in wrong:
            self.assertIsNone(Edit.parse(line), line)
        self.assertFalse(Edit.parse("drop a 0 0").inverse("A").may_be(Edit.place("a", "B", (0, 0))))

    def test_inverses(self):
        """An edit and the one that takes it back leave a timetable as it was."""
        for seed in range(40):
            self.setUp()
            drawn = Drawn(self, seed)
            start = read_solution(drawn.start) if drawn.start else []
            known = KnownState(drawn.instance, start)
            week = Week(drawn.plain, lectures_of(drawn.start))
            for _ in range(100):
                edit = drawn.edit(known)
                if week.fault(edit) is None:
                    before = known.newest.copy()
                    back = known.newest.make(Edit.parse(edit))
                    self.assertEqual(week.make(edit), str(back))
                    self.assertIsNone(week.fault(str(back)))
                    known.newest.make(back)
                    self.assertTrue(known.newest.same_as(before))
                    known.newest.make(Edit.parse(edit))

    def test_what_does_not_fit(self):
        """An edit of which a lecture is not there, or one is where it would lead, is not made."""
        timetable = Timetable(read_instance(SMALL), read_solution(SMALL_SOL))
        before = timetable.copy()
        for edit in (
            "drop geo 0 0",
            "move geo 0 0 A 1 1",
            "move geo 0 1 B 1 2",
            "reroom top A 0 1",
            "place geo B 0 1",
            "swap geo 0 1 top 0 1",
            "swap geo 0 0 top 0 2",
            "swap geo 0 1 geo 0 1",
            "swap geo 0 1 alg 1 2",
        ):
            self.assertIsNone(timetable.make(Edit.parse(edit)), edit)
            self.assertTrue(timetable.same_as(before), edit)
        # whether the desk would make it is not asked
        back = timetable.make(Edit.parse("place top B 0 1"))
        self.assertEqual(str(back), "drop top 0 1")

    def test_hears_what_the_desk_says(self):
        """Answers are taken as they are, as long as the lectures stand that they are about."""
        known = KnownState(read_instance(SMALL), read_solution(SMALL_SOL))
        for line, answer, fits in (
            ("open", "opened", True),
            ("drop geo 0 1", "refused barred", True),
            ("place geo A 0 2", "done", True),
            ("drop geo 0 0", "done", False),
            ("drop geo 0 1", "sure", False),
            ("undo", "done drop top 0 2", False),
            ("undo", "nothing to undo", False),
            ("undo", "done drop geo 0 2", True),
            ("undo", "nothing to undo", True),
            ("peek course geo", "lectures 2 geo A 0 1 geo A 1 2", True),
            ("peek course geo", "lectures 1 geo A 0 1", False),
            ("reroom geo B 0 1", "done", True),
            ("drop geo 1 2", "done", True),
            ("commit", "stale course geo", True),
            ("redo", "redone 3 of 4 refused 3 reroom geo B 0 1 blocked", True),
            ("redo", "redone 3 of 4", False),
        ):
            # after an answer that does not fit all is read again
            fed = known if fits else copy.deepcopy(known)
            self.assertEqual(fed.feed(line, answer), fits, (line, answer))
        self.assertEqual(known.made_lines, ["place geo A 0 2", "drop geo 0 2", "drop geo 1 2"])
        (last,) = known.standing
        self.assertEqual(lines_of(last), ["drop geo 1 2", "place geo A 1 2"])

    def test_state_by_a_log(self):
        state = FedState()
        day = [
            ("open", "opened"),
            ("place geo A 0 1", "done"),
            ("place alg A 0 1", "refused clash geo"),
            ("drop geo 0 1", "done"),
            ("undo", "done place geo A 0 1"),
            ("slot 0 0", "lectures 0"),
            ("reroom geo B 0 1", "done"),
            ("commit", "stale slot 0 1"),
        ]
        for line, answer in day:
            state.feed(line, answer)
        self.assertFalse(state.is_open)
        self.assertEqual(lines_of(state.unfinished()), ["place geo A 0 1", "reroom geo B 0 1"])
        state.feed("redo", "redone 3 of 4 refused 4 reroom geo B 0 1 roomtaken top")
        self.assertEqual(state.made_lines, ["place geo A 0 1", "drop geo 0 1", "place geo A 0 1"])
        state.feed("commit", "committed 7")
        self.assertEqual((state.unfinished(), state.accepted), ([], [7]))

    def test_torn_minutes(self):
        path = self.write("minutes", "entry 0 1\nplace geo A 0 1\ndone\nentry 1 2\nslot 0 0\n")
        minutes = Minutes(path)
        self.assertEqual([lines_of(one.edits) for one in minutes.read_on()], [["place geo A 0 1"]])
        with open(path, "a") as file:
            file.write("lectures 0\nplace top B 0 2\nrefused full\n")
        self.assertTrue(minutes.has_grown())
        (entry,) = minutes.read_on()
        self.assertEqual((entry.number, entry.planner, entry.edits), (2, 1, []))
        self.assertFalse(minutes.has_grown())

    def test_timetable_of_an_empty_instance(self):
        path = self.write(
            "empty",
            "Name: x Courses: 0 Rooms: 0 Days: 1 Periods_per_day: 1 "
            "Curricula: 0 Constraints: 0 COURSES: "
            "ROOMS: CURRICULA: UNAVAILABILITY_CONSTRAINTS: END.",
        )
        self.assertEqual(Timetable(read_instance(path)).lectures(), [])
