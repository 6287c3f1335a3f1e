"""The history of a lecture or a week at the screen, and drafts taken back there."""
from support import SMALL, OfficeTest, lines_of, make_edit

from office.day.folder import Day
from office.terminal.board import Board


def text_of(board):
    return "\n".join("".join(text for text, _ in row).rstrip() for row in board.rows(24, 100))


class History(OfficeTest):
    """Two planners at the small instance."""

    def setUp(self):
        super().setUp()
        self.open("day", SMALL, "2")
        self.ben = self.planning("day", 1, "ben")
        for edits in (["place geo A 0 1"], ["move geo 0 1 B 1 2", "place alg A 1 1"]):
            for edit in edits:
                self.assertTrue(make_edit(self.ben, edit))
            self.ben.commit()
        self.anna = self.planning("day", 0, "anna")
        self.board = Board(self.anna)
        self.board.begin()

    def press(self, *keys):
        for key in keys:
            self.board.press(key)
            text_of(self.board)

    def at_geo(self):
        """The week of geo, with the cursor at its lecture."""
        self.press("v", *"course geo", "enter")

    def test_lecture(self):
        self.at_geo()
        self.press("h")
        told = text_of(self.board)
        self.assertIn("Drafts that have changed course geo, newest first", told)
        first, second = told.split("\n")[2:4]
        self.assertRegex(first, r"2 ben, \d\d:\d\d: geo: day 1, period 2, A -> day 2, period 3, B")
        self.assertRegex(second, r"1 ben, \d\d:\d\d: geo: placed on day 1, period 2, A")
        self.press("enter")
        told = text_of(self.board)
        self.assertRegex(told, r"Draft 2, ben, \d\d:\d\d")
        self.assertIn("alg: placed on day 2, period 2, A", told)
        self.assertIn("Cost before 17, after ", told)
        self.assertIn("t takes it back in your draft", told)

    def test_week(self):
        """Where nothing stands it is the week that is meant."""
        self.press("v", *"room A", "enter", "up", "up", "up", "h")
        told = text_of(self.board)
        self.assertIn("Drafts that have changed room A, newest first", told)
        self.press("escape", "v", *"course top", "enter", "h")
        self.assertIn("No draft of today has changed course top.", text_of(self.board))

    def test_take_back(self):
        self.at_geo()
        self.press("h", "enter", "t")
        told = text_of(self.board)
        self.assertIn("Draft 2 is taken back by 2 edits; none is committed yet.", told)
        self.assertEqual(lines_of(self.anna.edits()), ["move geo 1 2 A 0 1", "drop alg 1 1"])
        self.assertEqual(len(self.anna.minutes.entries), 2)
        self.anna.commit()
        lectures = self.anna.known.newest.lectures()
        self.assertEqual([one.words() for one in lectures], ["geo A 0 1"])
        # what was taken back can be taken back
        self.press("h", "enter", "t")
        self.assertEqual(len(lines_of(self.anna.edits())), 2)

    def test_what_stands_in_the_way(self):
        """What cannot go back is said as the desk says it, and is no part of the draft."""
        make_edit(self.ben, "place alg B 0 1")
        self.ben.commit()
        self.press("v", *"course geo", "enter", "h", "enter", "t")
        told = text_of(self.board)
        self.assertIn("Draft 2 is taken back by 1 edit; none is committed yet.", told)
        reason = "curriculum q1 has alg then"
        self.assertIn(f"geo: day 2, period 3, B -> day 1, period 2, A: {reason}", told)
        self.assertEqual(lines_of(self.anna.seat.state.made), ["drop alg 1 1"])
        # who changes a lecture that does not go back has not made the draft stale
        make_edit(self.ben, "drop geo 1 2")
        self.ben.commit()
        self.anna.read_status()
        self.assertEqual((self.anna.stale_preview, self.anna.accepted_count()), (None, 1))

    def test_without_a_program(self):
        """If nobody says what can go back, nothing is done, and the reason is said."""
        day = Day(self.path("day"))
        facts = day.facts()
        self.write("nowhere", "#!/nowhere\n", 0o755)
        day.write_facts({**facts, "program": [self.path("nowhere")]})
        self.at_geo()
        self.press("h", "enter", "t")
        told = text_of(self.board)
        self.assertIn(f"Draft 2 is not taken back: cannot run {self.path('nowhere')}", told)
        self.assertFalse(self.anna.is_open)
        self.anna.seat.go()
        named = self.environment.pop("TIMEDESK")
        found = self.office("revert", self.path("day"), "2", "--seat", "0")
        wanted = f"office: Draft 2 is not taken back: cannot run {self.path('nowhere')}"
        self.assertEqual(found[:2], (3, ""))
        self.assertTrue(found[2].startswith(wanted), found[2])
        day.write_facts(facts)
        self.environment["TIMEDESK"] = named
        found = self.office("revert", self.path("day"), "2", "--seat", "0")
        self.assertEqual(found[0], 0)

    def test_changed_since(self):
        make_edit(self.ben, "move geo 1 2 A 0 1")
        make_edit(self.ben, "drop alg 1 1")
        make_edit(self.ben, "place alg B 0 0")
        self.ben.commit()
        self.press("v", *"course alg", "enter", "h")
        self.press("down", "enter", "t")
        told = text_of(self.board)
        self.assertIn("Nothing of draft 2 is taken back.", told)
        self.assertIn("geo: day 2, period 3, B -> day 1, period 2, A: it is so already", told)
        self.assertIn("alg: taken out of day 2, period 2, A: draft 3 of ben has changed it", told)
        self.assertFalse(self.anna.is_open)

    def test_stale_draft_first(self):
        """Who has a stale draft decides on it first."""
        make_edit(self.anna, "move geo 1 2 A 1 0")
        make_edit(self.ben, "drop geo 1 2")
        self.ben.commit()
        self.anna.commit()
        self.assertEqual(lines_of(self.anna.ended()), ["move geo 1 2 A 1 0"])
        self.press("v", *"course alg", "enter", "h", "enter", "t")
        self.assertIn("First say what becomes of the 1 edit", text_of(self.board))
        self.assertFalse(self.anna.is_open)
