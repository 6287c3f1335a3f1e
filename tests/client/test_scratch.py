"""A desk of the program beside that of the day, where edits are tried."""
import unittest

from support import PROGRAM, SMALL, SMALL_SOL, OfficeTest, lines_of

from office.data.instance_files import written
from office.day.edits import Edit
from office.day.folder import Day
from office.day.instance import read_instance, read_solution
from office.day.lecture import Lecture
from office.day.parts import last_part
from office.day.scratch_desk import Scratch, scratch_of
from office.refused import Refused

RUN = [PROGRAM, "run", SMALL, "-"]
PLACED = [Lecture(*row) for row in read_solution(SMALL_SOL)]


def answers_of(scratch, lines):
    """What a desk answers edits, both as lines."""
    return lines_of(scratch.answers(list(map(Edit.parse, lines))))


class Tried(OfficeTest):
    def test_begins_anew(self):
        scratch = Scratch(RUN, PLACED)
        edits = ["drop geo 0 1", "place top A 0 1", "place alg B 0 1", "place geo B 0 1"]
        wanted = ["done", "refused full", "refused full", "done"]
        for _ in range(2):
            self.assertEqual(answers_of(scratch, edits), wanted)
        self.assertEqual(answers_of(scratch, ["place geo B 0 1"]), ["refused already"])
        self.assertEqual(answers_of(scratch, []), [])

    def test_without_lectures(self):
        edits = ["drop geo 0 1", "place geo A 0 1", "place geo A 0 9"]
        answers = answers_of(Scratch(RUN), edits)
        self.assertEqual(answers, ["refused notplaced", "done", "bad line"])

    def test_lectures_that_cannot_stand(self):
        scratch = Scratch(RUN, [*PLACED, Lecture("top", "A", 0, 1)])
        with self.assertRaisesRegex(Refused, "the program does not try edits"):
            answers_of(scratch, [])

    def test_program_that_fails(self):
        for text in ("exit 3", "echo opened; exit 0", "yes done", "kill -9 $$"):
            text = text.replace("yes done", "echo opened; echo done; echo done")
            broken = self.write("broken", f"#!/bin/sh\ncat >/dev/null\n{text}\n", 0o755)
            with self.assertRaisesRegex(Refused, "the program does not try edits"):
                answers_of(Scratch([broken]), ["drop geo 0 1"])
        with self.assertRaisesRegex(Refused, "cannot run .*nowhere: No such file"):
            answers_of(Scratch([self.path("nowhere")]), [])

    def test_what_it_says(self):
        """Who waits for it hears why the program refuses; then nothing more is said."""
        with self.assertRaises(Refused) as caught:
            answers_of(Scratch([PROGRAM, "run", self.path("nowhere"), "-"], quiet=False), [])
        self.assertEqual(caught.exception.reason, "")

    def test_rules_of_a_day(self):
        self.write("barred", "Barred: 1\ngeo A\nEND.\n")
        self.open("day", SMALL, "1", "--barred", self.path("barred"))
        self.office("block", self.path("day"), "room", "B", "1", "2")
        scratch = scratch_of(last_part(Day(self.path("day"))), [])
        edits = ["place geo A 0 1", "place geo B 0 1", "place alg B 0 1"]
        self.assertEqual(
            answers_of(scratch, edits), ["refused barred", "refused blocked", "refused blocked"]
        )

    def test_written(self):
        """An instance that is in no file yet."""
        instance = read_instance(SMALL)
        instance.barred.add(("geo", "A"))
        with written(instance) as files:
            answers = answers_of(Scratch([PROGRAM, "run", *files]), ["place geo A 0 1"])
        self.assertEqual(answers, ["refused barred"])


if __name__ == "__main__":
    unittest.main()
