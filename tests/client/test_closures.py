"""What is blocked on a day, as a file of lines, and the side file that is made of it."""
import os
import random

from plain_instance import text_of
from plain_rules import Week
from rules import Instance
from support import PROGRAM, SMALL, OfficeTest, lines_of

from office.data.label_files import read_labels
from office.day.blocking import find_scope
from office.day.closure import Scope
from office.day.closures_file import (
    add_closure,
    blocked_now,
    blocked_text,
    closures_end,
    closures_path,
    lifted_now,
    read_blocked,
    read_closures,
    standing,
    standing_of,
)
from office.day.edits import Edit
from office.day.folder import Day
from office.day.instance import read_instance
from office.day.scratch_desk import Scratch
from office.day.shared_lines import one_line
from office.refused import Refused

R, T, C = Scope("room", "A", 0), Scope("teacher", "t1", None, 1), Scope("course", "geo", 1, 2)


class File(OfficeTest):
    def setUp(self):
        super().setUp()
        self.day = Day(self.room)
        self.instance = read_instance(SMALL)

    def add(self, scope, why="", lifts=False, seat=1):
        make = lifted_now if lifts else blocked_now
        closure = make(scope, "ben", seat, why)
        self.assertEqual(add_closure(self.day, closure), "")
        return closure

    def test_read_again(self):
        told = [self.add(R, "heating\tand \n more"), self.add(T, seat=None), self.add(R, "", True)]
        told[0] = told[0]._replace(why="heating and more")
        self.assertEqual(read_closures(self.day), told)
        self.assertEqual(standing(told), [told[1]])
        self.assertEqual(os.stat(closures_path(self.day)).st_mode & 0o777, 0o660)

    def test_names(self):
        """A name may have any blank but those that part words, and be `*`; bytes stay."""
        for name in ("a\u00a0b", "*", "-", "\udcff\udc80", "x\u2028y\x1cz"):
            scope = Scope("room", name, 0, None)
            self.add(scope, name)
            self.assertEqual(read_closures(self.day)[-1][0], scope)
            self.assertEqual(read_closures(self.day)[-1].why, one_line(name))

    def test_torn(self):
        """A line that was cut does nothing, wherever it was cut; the next one is whole."""
        self.add(R, "one")
        self.add(T, "", True)
        first = os.path.getsize(closures_path(self.day))
        self.add(C, "the reason")
        with open(closures_path(self.day), "rb") as file:
            whole = file.read()
        for cut in range(first, len(whole)):
            with open(closures_path(self.day), "wb") as file:
                file.write(whole[:cut])
            self.assertEqual(len(read_closures(self.day)), 2, cut)
            self.assertEqual(closures_end(self.day), first)
            self.add(R, "again", True)
            found = read_closures(self.day)
            # all but the end of the line was there
            self.assertEqual(len(found), 4 if cut == len(whole) - 1 else 3)
            self.assertEqual(found[-1].why, "again")
            # and what is read from where one stopped is what has come since
            self.assertEqual(read_closures(self.day, first), found[2:])

    def test_wrong_lines(self):
        with open(closures_path(self.day), "w") as file:
            for fields in (
                "t room A x * ben 1  block",
                "t house A 0 * ben 1  block",
                "t room A 0 * ben one  block",
                "t room A 0 * ben 1  close",
                "t room A 0 * ben 1 block",
                "t room A 0 * ben 1  block more",
            ):
                file.write(fields.replace(" ", "\t") + "\n")
        self.assertEqual(read_closures(self.day), [])

    def test_standing(self):
        """Lifting takes away what is a part of it, and nothing else."""
        day, slot, other = Scope("room", "A", 1), Scope("room", "A", 1, 2), Scope("room", "B", 1)
        for lifted, left in [
            (Scope("room", "A"), [other]),
            (day, [R, other]),
            (slot, [R, day, other]),
            (Scope("room", "A", None, 2), [R, day, other]),
            (Scope("teacher", "A"), [R, day, slot, other]),
        ]:
            told = [blocked_now(scope, "", None, "") for scope in (R, day, slot, other)]
            told.append(lifted_now(lifted, "", None, ""))
            self.assertEqual([one.scope for one in standing(told)], left, lifted)
        again = [blocked_now(R, "a", 0, "x"), blocked_now(R, "b", 1, "y")]
        self.assertEqual(standing(again), again[1:])

    def test_by_drawing(self):
        """What stands is blocked slot by slot as one who reads line by line would say, as long as
        only what was blocked is lifted."""
        draw = random.Random(69)
        for _ in range(200):
            told, kept = [], []
            for _ in range(draw.randrange(12)):
                if kept and draw.random() < 0.4:
                    scope = draw.choice(kept)
                    kept = [one for one in kept if not scope.covers(one)]
                    told.append(lifted_now(scope, "", None, ""))
                    continue
                day, period = draw.choice([None, 0, 1]), draw.choice([None, 0, 1, 2])
                scope = Scope("room", draw.choice("AB"), day, period)
                kept = [one for one in kept if one != scope] + [scope]
                told.append(blocked_now(scope, "", None, ""))
            self.assertEqual([one.scope for one in standing(told)], kept)

    def test_of_instance(self):
        """What an instance does not have is left out."""
        for scope in (
            R,
            Scope("room", "alg"),
            Scope("room", "A", 2),
            Scope("room", "A", 0, 3),
            Scope("teacher", "A"),
            Scope("course", "t1"),
            T,
            C,
        ):
            self.add(scope)
        self.assertEqual([one.scope for one in standing_of(self.day, self.instance)], [R, T, C])


class SideFile(OfficeTest):
    def test_text(self):
        self.assertEqual(blocked_text([]), b"Blocked: 0\nEND.\n")
        told = [blocked_now(scope, "", None, "") for scope in (R, T, C, R)]
        text = blocked_text(told)
        self.assertEqual(
            text, b"Blocked: 3\ncourse geo 1 2\nroom A 0 *\nteacher t1 * 1\nEND.\n"
        )
        path = self.path("blocked")
        with open(path, "wb") as file:
            file.write(text)
        self.assertEqual(set(read_blocked(path)), {R, T, C})
        # the order in which it was said is no difference
        self.assertEqual(text, blocked_text(told[::-1]))

    def test_instance(self):
        """What a client knows of the rules."""
        instance = read_instance(SMALL)
        instance.block([blocked_now(scope, "", None, "") for scope in (R, T, C)])
        self.assertEqual(instance.blocked, {"A": {(0, 0), (0, 1), (0, 2)}})
        self.assertIn((1, 2), instance.closed["geo"])
        taught = instance.teachers["t1"]
        for course in instance.courses:
            closed = instance.closed[course] - instance.unavailable[course]
            wanted = {(0, 1), (1, 1)} if course in taught else set()
            wanted |= {(1, 2)} if course == "geo" else set()
            self.assertEqual(closed, wanted - instance.unavailable[course])
        # what the desk says, and that of the tests
        path = self.path("blocked")
        with open(path, "wb") as file:
            file.write(blocked_text(instance.closures))
        edits = ["place geo A 0 1", "place geo B 0 1", "place geo A 1 2"]
        for sides, wanted in (
            (["--blocked", path], ["refused blocked", "done", "refused unavailable"]),
            ([], ["done", "done", "done"]),
        ):
            week = Week(Instance(*map(text_of, (SMALL, *sides[1:]))))
            for edit, answer in zip(edits, wanted):
                scratch = Scratch([PROGRAM, "run", SMALL, "-", *sides])
                found = scratch.answers([Edit.parse(edit)])
                self.assertEqual(lines_of(found), [answer])
                fault = week.fault(edit)
                self.assertEqual(f"refused {fault}" if fault else "done", answer)


class Words(OfficeTest):
    """What people write."""

    def setUp(self):
        super().setUp()
        self.instance = read_instance(SMALL)

    def find(self, *words):
        return find_scope(list(words), self.instance, read_labels(self.room))

    def refused(self, told, *words):
        with self.assertRaises(Refused) as found:
            self.find(*words)
        self.assertIn(told, found.exception.reason)

    def test_numbers(self):
        self.assertEqual(self.find("room", "A"), Scope("room", "A"))
        self.assertEqual(self.find("room", "A", "1"), Scope("room", "A", 0))
        self.assertEqual(self.find("teacher", "t1", "2", "3"), Scope("teacher", "t1", 1, 2))
        self.assertEqual(self.find("course", "geo", "*", "1"), Scope("course", "geo", None, 0))
        self.assertEqual(self.find("course", "geo", "tue", "all"), Scope("course", "geo", 1))
        self.refused("there is no day 3: they are day 1, day 2", "room", "A", "3")
        self.refused("there is no day 0", "room", "A", "0")
        self.refused("there is no day wed", "room", "A", "wed")
        self.refused("there is no day someday", "room", "A", "someday")
        self.refused("there is no period 4: they are numbers from 1 to 3", "room", "A", "1", "4")
        self.refused("there is no period x", "room", "A", "1", "x")
        self.refused("there is no room alg", "room", "alg")
        self.refused("room, teacher or course, a name", "curriculum", "q1")
        self.refused("room, teacher or course, a name", "room")
        self.refused("room, teacher or course, a name", "room", "A", "1", "2", "3")

    def test_names(self):
        self.write("labels.csv", "kind,code,name\nroom,A,Great hall\n")
        self.write(
            "times.csv",
            "day,period,weekday,from,to\n1,1,Thu,8:15,9:45\n1,2,Thu,10:15,11:45\n2,1,Fri,8:30,10:00\n",
        )
        self.assertEqual(self.find("room", "Great hall", "fri"), Scope("room", "A", 1))
        self.assertEqual(self.find("room", "A", "Thursday", "10:15"), Scope("room", "A", 0, 1))
        self.assertEqual(self.find("room", "A", "*", "8:30"), Scope("room", "A", None, 0))
        self.refused("there is no day mon: they are Thu, Fri", "room", "A", "mon")
        self.refused("there is no period 10:15", "room", "A", "fri", "10:15")
