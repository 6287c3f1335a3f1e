"""Drafts that are put aside and made again, and edits that are taken back and made again."""
from support import lines_of, make_edit
from two_screens import BEST, Two

from office.day.folder import Day
from office.terminal.board import Board


class Variants(Two):
    def test_put_aside_and_made_again(self):
        anna, ben = self.boards()
        make_edit(anna.planning, BEST)
        make_edit(anna.planning, "drop c0001 1 2")
        text = self.type_keys(anna, "n", *"big room", "enter")
        self.assertIn("Put aside as big room: 2 edits.", text)
        self.assertFalse(anna.planning.is_open)
        make_edit(anna.planning, "reroom c0049 r04 0 0")
        self.type_keys(anna, "n", *"other", "enter")
        make_edit(ben.planning, "drop c0109 4 1")
        self.commit(ben)
        anna.tick()
        text = self.type_keys(anna, "N")
        self.assertRegex(
            text, r"> big room: 2 edits, 1 of them can be made now: cost -?\+?\d+, missing 2"
        )
        self.assertIn("other: 1 edit, 1 of them can be made now: cost -231, missing 1", text)
        text = self.type_keys(anna, "d", "down", "d")
        self.assertIn("big room -> other", text)
        self.assertIn("c0001: placed on day 2, period 3", text)
        self.assertIn("c0049: day 1, period 1, r09 -> r04", text)
        text = self.type_keys(anna, "escape", "N", "enter")
        self.assertIn("1 of 2 edits made again, none committed yet.", text)
        self.assertEqual(lines_of(anna.planning.edits()), ["drop c0001 1 2"])
        # another one is made the draft only when this one is put aside or given up
        anna.press("escape")
        self.assertIn("puts them aside", self.type_keys(anna, "N", "down", "enter"))
        self.assertEqual(lines_of(anna.planning.edits()), ["drop c0001 1 2"])

    def test_without_a_program(self):
        """What was put aside is listed, and can be taken up, if the program says nothing."""
        anna, _ = self.boards()
        for edit in (BEST, "drop c0001 1 2"):
            make_edit(anna.planning, edit)
            self.type_keys(anna, "n", *edit.split(" ")[0], "enter")
        day = Day(self.path("day"))
        self.write("nowhere", "#!/nowhere\n", 0o755)
        day.write_facts({**day.facts(), "program": [self.path("nowhere")]})
        text = self.type_keys(anna, "N")
        told = "1 edit; the program does not say what it would bring now"
        self.assertIn(f"move: {told}", text)
        self.assertIn(f"drop: {told}", text)
        text = self.type_keys(anna, "d", "down", "d")
        self.assertIn("move -> drop", text)
        self.assertIn("Cannot compare them: the program gave no answer.", text)
        self.type_keys(anna, "escape", "N", "enter")
        self.assertEqual(lines_of(anna.planning.edits()), [BEST])

    def test_survives(self):
        """Variants are there after a crash of the client, of the desk, and on the next day."""
        anna, _ = self.boards()
        make_edit(anna.planning, BEST)
        self.type_keys(anna, "n", *"one", "enter")
        # no farewell: the client is killed
        leave, anna.planning.seat.log.noted = anna.planning.seat.log.noted, lambda text: None
        anna.planning.seat.go()
        self.assertIsNotNone(leave)
        anna = Board(self.planning("day", 0, "anna"))
        anna.begin()
        self.assertEqual(lines_of(anna.work.variants.kept["one"]), [BEST])
        self.assertEqual(list(anna.work.variants.kept), ["one"])
        anna.planning.seat.go()
        self.end(self.office_process)
        self.assertEqual(self.office("close", self.path("day"))[0], 0)
        self.open("next", "--after", self.path("day"))
        anna = Board(self.planning("next", 0, "anna"))
        anna.begin()
        self.assertEqual(lines_of(anna.work.variants.kept["one"]), [BEST])
        self.assertEqual(list(anna.work.variants.kept), ["one"])
        self.type_keys(anna, "N", "enter")
        self.assertEqual(lines_of(anna.planning.edits()), [BEST])
        self.type_keys(anna, "N", "x")
        anna.planning.seat.go()
        anna = Board(self.planning("next", 0, "anna"))
        anna.begin()
        self.assertEqual(anna.work.variants.kept, {})

    def test_undone_is_done_again(self):
        anna, _ = self.boards()
        for edit in (BEST, "drop c0001 1 2"):
            make_edit(anna.planning, edit)
        self.type_keys(anna, "u", "u")
        self.assertEqual(lines_of(anna.planning.edits()), [])
        anna.planning.seat.go()
        anna = Board(self.planning("day", 0, "anna"))
        anna.begin()
        self.type_keys(anna, "U")
        self.assertEqual(lines_of(anna.planning.edits()), [BEST])
        self.type_keys(anna, "U")
        self.assertEqual(lines_of(anna.planning.edits()), [BEST, "drop c0001 1 2"])
        self.assertIn("Nothing was taken back", self.type_keys(anna, "U"))
        # another edit in between ends it
        self.type_keys(anna, "u")
        make_edit(anna.planning, "reroom c0049 r04 0 0")
        self.assertIn("Nothing was taken back", self.type_keys(anna, "U"))
