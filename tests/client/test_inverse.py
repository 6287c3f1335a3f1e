"""The inverse of drafts, on timetables that others have changed since."""
import random
import unittest

from plain_instance import text_of
from plain_rules import Week
from rules import Instance
from support import PROGRAM, SMALL, SPRING, SPRING_SOL, lines_of

from office.day.edits import Edit, Kind
from office.day.instance import read_instance, read_solution
from office.day.scratch_desk import Scratch
from office.day.shifts import Shift
from office.day.timetable import Timetable
from office.past.drafts import make_draft
from office.past.inverse import invert as invert_by
from office.refused import Refused


PLAIN = Instance(text_of(SPRING))


def invert(timetable, shifts):
    """The inverse, by a desk of the program."""
    scratch = Scratch([PROGRAM, "run", SPRING, "-"], timetable.lectures())
    return invert_by(timetable, shifts, scratch.answers)


def week_of(timetable):
    """The same for the desk of the tests, which says what can be made."""
    return Week(PLAIN, timetable.lectures())


def parsed(edit):
    """An edit, which may be written as a line of the desk."""
    return edit if isinstance(edit, Edit) else Edit.parse(edit)


def make(timetable, edit):
    """Makes an edit if it can be made, and answers whether it could."""
    edit = parsed(edit)
    return week_of(timetable).fault(str(edit)) is None and timetable.make(edit) is not None


def draft(timetable, *edits):
    """What a draft of these edits does to a timetable, which is changed."""
    trial = timetable.copy()
    assert all(make(trial, edit) for edit in edits), edits
    return make_draft(timetable, list(map(parsed, edits)))


def state(timetable):
    return [lecture.words() for lecture in timetable.lectures()]


class OnComp07(unittest.TestCase):
    """Edits of spring."""

    @classmethod
    def setUpClass(cls):
        cls.instance = read_instance(SPRING)
        cls.start = Timetable(cls.instance, read_solution(SPRING_SOL))

    def setUp(self):
        self.timetable = self.start.copy()
        # other rooms that c0109 can have where it stands
        week = week_of(self.start)
        faults = {room: week.fault(f"reroom c0109 {room} 4 1") for room in self.instance.rooms}
        free = [room for room, fault in faults.items() if fault is None and room != "r01"]
        self.free, self.other = free[:2]

    def makes(self, inverse):
        """Makes the edits of an inverse, each of which can be made."""
        for edit in inverse.edits:
            self.assertTrue(make(self.timetable, edit), edit)

    def check_back(self, edits, back):
        """A draft, and the edits that take it back."""
        inverse = invert(self.timetable, draft(self.timetable, *edits))
        self.assertEqual((lines_of(inverse.edits), inverse.kept), (back, []))
        self.makes(inverse)
        self.assertEqual(state(self.timetable), state(self.start))

    def test_each_kind(self):
        self.check_back(["move c0097 0 3 r12 2 3"], ["move c0097 2 3 r18 0 3"])
        self.check_back([f"reroom c0109 {self.free} 4 1"], ["reroom c0109 r01 4 1"])
        self.check_back(["drop c0109 4 1"], ["place c0109 r01 4 1"])
        self.check_back(["swap c0109 4 1 c0078 3 1"], ["swap c0109 3 1 c0078 4 1"])
        # what a draft has dropped and placed has moved
        self.check_back(["drop c0109 4 1", "place c0109 r04 4 3"], ["move c0109 4 3 r01 4 1"])

    def test_place(self):
        self.timetable.make(parsed("drop c0109 4 1"))
        before = state(self.timetable)
        inverse = invert(self.timetable, draft(self.timetable, "place c0109 r04 4 3"))
        self.assertEqual(lines_of(inverse.edits), ["drop c0109 4 3"])
        self.makes(inverse)
        self.assertEqual(state(self.timetable), before)

    def test_nothing(self):
        shifts = draft(self.timetable, "move c0097 0 3 r12 2 3", "move c0097 2 3 r18 0 3")
        self.assertEqual((shifts, invert(self.timetable, shifts).edits), ([], []))

    def kept(self, inverse):
        return [(one.shift.course, one.why.code) for one in inverse.kept]

    def test_changed_since(self):
        """Others have moved one of two lectures on; the other one goes back."""
        shifts = draft(self.timetable, "move c0097 0 3 r12 2 3", f"reroom c0109 {self.free} 4 1")
        draft(self.timetable, "move c0097 2 3 r18 0 3", f"reroom c0109 {self.other} 4 1")
        inverse = invert(self.timetable, shifts)
        self.assertEqual(inverse.edits, [])
        self.assertEqual(
            self.kept(inverse), [("c0097", "back already"), ("c0109", "changed since")]
        )

    def test_swap_with_one_changed(self):
        """Of two that were swapped one was moved on: the other one goes back alone, where there is
        room."""
        shifts = draft(self.timetable, "swap c0109 4 1 c0078 3 1")
        self.timetable.make(parsed("drop c0078 4 1"))
        inverse = invert(self.timetable, shifts)
        self.assertEqual(lines_of(inverse.edits), ["move c0109 3 1 r01 4 1"])
        self.assertEqual(self.kept(inverse), [("c0078", "changed since")])

    def test_taken_since(self):
        """Where a lecture stood before somebody has put another one."""
        shifts = draft(self.timetable, "move c0109 4 1 r04 4 3")
        week = week_of(self.timetable)
        free = next(
            lecture
            for lecture in self.timetable.lectures()
            if not week.fault(f"move {lecture.course} {lecture.day} {lecture.period} r01 4 1")
        )
        self.timetable.make(parsed(f"move {free.course} {free.day} {free.period} r01 4 1"))
        inverse = invert(self.timetable, shifts)
        self.assertEqual(inverse.edits, [])
        self.assertEqual(self.kept(inverse), [("c0109", "room taken")])

    def test_other_instance(self):
        """An earlier day had a course, a room and a slot that this one has not."""
        shifts = draft(self.timetable, "move c0097 0 3 r12 2 3")
        small = Timetable(read_instance(SMALL))
        self.assertEqual(self.kept(invert(small, shifts)), [("c0097", "no such course")])

    def test_rotation(self):
        """Three lectures that have taken each other's places in one room."""
        place = {one.course: one for one in self.timetable.lectures()}
        found = []
        for course in place:
            for other in place:
                third = self.rotation(place[course], place[other])
                if third:
                    found = [place[course], place[other], third]
                    break
            if found:
                break
        one, two, three = found
        edits = [
            f"swap {one.course} {one.day} {one.period} {two.course} {two.day} {two.period}",
            f"swap {one.course} {two.day} {two.period} {three.course} {three.day} {three.period}",
        ]
        shifts = draft(self.timetable, *edits)
        self.assertEqual(len(shifts), 3)
        inverse = invert(self.timetable, shifts)
        self.assertEqual(inverse.kept, [])
        self.makes(inverse)
        self.assertEqual(state(self.timetable), state(self.start))
        self.assertEqual([edit.kind for edit in inverse.edits].count(Kind.DROP), 1)

    def rotation(self, one, two):
        """A third lecture with which two of other courses can rotate."""
        trial = self.timetable.copy()
        if one.slot == two.slot or not make(
            trial, f"swap {one.course} {one.day} {one.period} {two.course} {two.day} {two.period}"
        ):
            return None
        week = week_of(trial)
        for three in trial.lectures():
            edit = (
                f"swap {one.course} {two.day} {two.period} "
                f"{three.course} {three.day} {three.period}"
            )
            if three.course not in (one.course, two.course) and week.fault(edit) is None:
                return three
        return None

    def test_no_program(self):
        """Where nobody says what can be made, nothing is known of it; where nothing is to be asked,
        nobody is."""

        def refuses(edits):
            raise Refused("cannot run it")

        shifts = draft(self.timetable, "drop c0109 4 1")
        with self.assertRaises(Refused):
            invert_by(self.timetable, shifts, refuses)
        self.timetable.make(parsed("place c0109 r01 4 1"))
        inverse = invert_by(self.timetable, shifts, refuses)
        self.assertEqual(self.kept(inverse), [("c0109", "back already")])

    def test_drawn(self):
        """Any draft is taken back whole, if nobody has changed anything since; and if somebody has,
        each edit of its inverse can be made, and no lecture is lost."""
        drawn = random.Random(7)
        for _ in range(30):
            timetable = self.start.copy()
            before = state(timetable)
            shifts = draft_by(drawn, timetable)
            changed = timetable.copy()
            inverse = invert(timetable, shifts)
            self.assertEqual(inverse.kept, [])
            for edit in inverse.edits:
                self.assertTrue(make(timetable, edit), edit)
            self.assertEqual(state(timetable), before)
            draft_by(drawn, changed)
            self.check_changed(changed, shifts)

    def check_changed(self, timetable, shifts):
        """What is not listed as kept has gone back, and nothing else has changed."""
        wanted, inverse = set(state(timetable)), invert(timetable, shifts)
        for edit in inverse.edits:
            self.assertTrue(make(timetable, edit), edit)
        kept = [one.shift for one in inverse.kept]
        back = [Shift(one.now, one.was) for one in shifts]
        gone = [one for one in back if one not in kept]
        wanted -= {one.was.words() for one in gone if one.was}
        wanted |= {one.now.words() for one in gone if one.now}
        self.assertEqual(set(state(timetable)), wanted)


def draft_by(drawn, timetable):
    """A drawn draft of up to twenty edits."""
    edits = []
    wanted = drawn.randint(1, 20)
    trial = timetable.copy()
    while len(edits) < wanted:
        edit = drawn_edit(drawn, trial)
        if make(trial, edit):
            edits.append(edit)
    return make_draft(timetable, list(map(parsed, edits)))


def drawn_edit(drawn, timetable):
    instance = timetable.instance
    one, two = drawn.choice(timetable.lectures()), drawn.choice(timetable.lectures())
    room = drawn.choice(list(instance.rooms))
    day, period = drawn.choice(instance.slots())
    at = f"{one.course} {one.day} {one.period}"
    return drawn.choice(
        [
            f"move {at} {room} {day} {period}",
            f"swap {at} {two.course} {two.day} {two.period}",
            f"swap {at} {two.course} {two.day} {two.period}",
            f"reroom {one.course} {room} {one.day} {one.period}",
            f"drop {at}",
            f"place {one.course} {room} {day} {period}",
        ]
    )


if __name__ == "__main__":
    unittest.main()
