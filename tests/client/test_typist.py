"""Who types names, words and accents at the screen publishes nothing, and loses nothing; any edit
can be taken back."""
import os
import random

from support import lines_of, make_edit
from two_screens import BEST, Two, text_of

from office.day.closures_file import closures_path, read_closures
from office.day.edits import Edit
from office.day.folder import Day
from office.words.folding import folded, searched
from office.words.meant import is_name, may_be_meant_otherwise

NAMES = "c0109 c0001 r04 t067 q000 Linear-Algebra Zoë Gauß Dvořák Ångström Müller Nguyễn Łódź"
WORDS = (
    "analysis quantum calculus chemistry computer college probability statistics networks yes "
    "nylon under useful extra review findings bench Biology Boole history income make move weeks "
    "view physics Physics Union Newton next open perhaps"
)


class Typist(Two):
    def test_typed_words(self):
        """2,000 words at a screen with a draft: nothing is published, no edit is lost."""
        anna, _ = self.boards()
        os.chdir(self.room)
        seen = {BEST, "drop c0001 1 2"}
        for edit in sorted(seen, reverse=True):
            make_edit(anna.planning, edit)
        draw = random.Random(87)
        words = [*NAMES.split(), *WORDS.split()]
        for number in range(int(os.environ.get("WORDS", "2000"))):
            word = draw.choice(words)
            for key in [*word, "enter"]:
                anna.press(key)
                seen |= set(lines_of(anna.planning.edits()))
            anna.planning.read_minutes()
            self.assertEqual(anna.planning.minutes.entries, [], (number, word))
            if anna.is_done:
                # only who has no draft leaves without a question
                self.assertEqual(anna.planning.edits(), [], word)
                anna.work.is_done = False
            if number % 50 == 0:
                anna.press("escape")
                text_of(anna)
        anna.planning.read_minutes()
        self.assertEqual(anna.planning.minutes.entries, [])
        self.assertEqual(read_closures(Day(self.path("day"))), [])
        self.assertEqual(seen - self.kept(anna), set())

    @staticmethod
    def kept(board):
        """The edits that a planner has still: in the draft, taken back, or put aside."""
        planning, variants = board.planning, board.work.variants
        found = [*planning.edits(), *planning.ended(), *planning.state.taken_back]
        for edits in [*variants.kept.values(), *variants.thrown.values()]:
            found += edits
        return set(lines_of(found))

    def test_asked_about(self):
        names = ["c0109", "r04", "Linear-Algebra", "Zoë Gauß", "Analysis II"]
        for key, why, is_asked in (
            ("c", "0109", True),
            ("c", "01", True),
            ("c", "hemistry", True),
            ("", "zoe gauss", True),
            ("", "c0109", True),
            ("c", "", False),
            ("c", "two", False),
            ("c", "the hall is free", False),
            ("inc", "ome", True),
            ("doc", "tor", True),
            ("", "heating", False),
        ):
            self.assertEqual(may_be_meant_otherwise(key, why, names), is_asked, (key, why))
        self.assertTrue(is_name("analysis ii", names))
        self.assertEqual(folded("Dvořák Łódź Gauß Ångström"), "dvorak lodz gauss angstrom")
        for typed in ("muller", "mueller", "zoe", "angstrom", "nguyen"):
            found = [one for one in ("Müller", "Zoë", "Ångström", "Nguyễn")]
            self.assertTrue(any(typed in searched(one) for one in found), typed)

    def test_one_name_is_not_committed(self):
        anna, _ = self.boards()
        make_edit(anna.planning, BEST)
        self.assertIn("c0109 is a name", self.type_keys(anna, *"c0109", "enter"))
        # who types on is asked again
        self.assertIn("is a name", self.type_keys(anna, *"chem", "enter"))
        self.assertEqual(anna.planning.minutes.read_on(), [])
        self.type_keys(anna, "escape")
        self.type_keys(anna, "c", *"for the dean", "escape")
        # a reason that was begun is there again
        self.assertIn("Why? for the dean", self.type_keys(anna, "c"))
        self.assertIn("Committed as draft 1", self.type_keys(anna, "enter"))

    def test_given_up(self):
        """What was given up is put aside, and made again from there; so is what was thrown away."""
        anna, _ = self.boards()
        make_edit(anna.planning, BEST)
        text = self.type_keys(anna, *"analysis", "enter")
        self.assertEqual(lines_of(anna.planning.edits()), [BEST], text)
        text = self.type_keys(anna, "a", "y")
        self.assertRegex(text, r"given up: 1 edit\. Put aside as given up \d\d:\d\d")
        self.type_keys(anna, "N", "x")
        self.assertIn("thrown away: given up", self.type_keys(anna, "N"))
        self.type_keys(anna, "enter")
        self.assertEqual(lines_of(anna.planning.edits()), [BEST])

    def test_leaving(self):
        anna, _ = self.boards()
        make_edit(anna.planning, BEST)
        self.type_keys(anna, *"quantum", "enter")
        self.assertFalse(anna.is_done)
        self.assertIn("Leave the seat?", self.type_keys(anna, "q"))
        self.type_keys(anna, "y")
        self.assertTrue(anna.is_done)

    def test_any_edit(self):
        """Each edit can be taken back, and made again; those after it stay."""
        anna, _ = self.boards()
        edits = [BEST, "drop c0001 1 2", "reroom c0049 r04 0 0"]
        for edit in edits:
            make_edit(anna.planning, edit)
        self.assertIn("choose one to take it back", self.type_keys(anna, "e"))
        self.assertIn("Take this edit back?", self.type_keys(anna, "enter"))
        self.assertIn("Taken back: c0109", self.type_keys(anna, "t"))
        self.assertEqual(lines_of(anna.planning.edits()), edits[1:])
        self.assertIn("taken back, to be made again: c0109", self.type_keys(anna, "e"))
        self.type_keys(anna, "up", *["down"] * 5, "enter")
        self.assertEqual(lines_of(anna.planning.edits()), [*edits[1:], BEST])
        self.type_keys(anna, "ctrl-z")
        self.assertEqual(lines_of(anna.planning.edits()), edits[1:])
        self.type_keys(anna, "ctrl-y")
        self.assertEqual(lines_of(anna.planning.edits()), [*edits[1:], BEST])

    def test_needed_by_another(self):
        """An edit on which another one stands: that is told, and kept to be made again."""
        anna, _ = self.boards()
        make_edit(anna.planning, BEST)
        make_edit(anna.planning, "drop c0109 4 3")
        question = anna.work.drafting.take_back(0, Edit.parse(BEST))
        self.assertEqual(len(question.lines), 2)
        self.assertEqual(lines_of(anna.planning.edits()), [])
        self.assertEqual(len(anna.planning.state.taken_back), 2)


class Closures(Two):
    def test_no_reason_blocks_nothing(self):
        anna, _ = self.boards()
        self.go_to(anna, "room r04", (4, 3))
        self.type_keys(anna, "B", *"on all days", "enter")
        self.assertIn("A reason is needed", self.type_keys(anna, "enter", "enter"))
        self.assertFalse(os.path.exists(closures_path(Day(self.path("day")))))

    def test_lifted_and_put_back(self):
        """A closure and its lifting stand in the history; what stood there is offered again."""
        anna, ben = self.boards()
        self.go_to(anna, "room r04", (4, 3))
        before = anna.planning.known.newest.copy()
        self.type_keys(anna, "B", *"on day 5 (4", "enter", *"by mistake", "enter")
        self.step(anna, ben)
        count = sum(anna.planning.missing().values())
        self.assertGreater(count, 0, text_of(anna))
        self.type_keys(anna, "escape", "enter", "escape")
        self.assertIn("r04 is blocked on day 5: by mistake", self.type_keys(anna, "h"))
        text = self.type_keys(anna, "enter")
        self.assertIn("These lectures were taken out by it:", text)
        self.type_keys(anna, "l", *"it was a mistake", "enter")
        self.step(anna, ben)
        self.assertIn("These lectures stood there before", text_of(anna))
        self.assertNotIn("stood there before", text_of(ben))
        self.assertIn(f"Put back in your draft: {count} of", self.type_keys(anna, "y"))
        self.assertTrue(anna.planning.known.present().same_as(before))
        self.type_keys(anna, "c", "enter")
        self.assertIn("is open again on day 5: it was a mistake", self.type_keys(anna, "h"))

    def step(self, *boards):
        """Goes on in the next part of the day."""
        from support import wait_until

        self.assertTrue(wait_until(boards[0].work.is_over))
        for board in boards:
            board.planning.seat.leave_desk()
        for board in boards:
            board.step_over()
