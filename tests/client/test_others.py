"""Two seats that know of each other: marks, who is where, and pins, at the screen."""
from support import SMALL, OfficeTest, lines_of, make_edit

from office.day.folder import Day
from office.day.pins import read_pins
from office.terminal.board import Board


def text_of(board):
    return "\n".join("".join(text for text, _ in row).rstrip() for row in board.rows(24, 100))


class Others(OfficeTest):
    """Anna and ben at the small instance, at which geo and alg are placed."""

    def setUp(self):
        super().setUp()
        self.open("day", SMALL, "3")
        self.ben = self.planning("day", 1, "ben")
        for edit in ["place geo A 0 1", "place alg A 1 1"]:
            self.assertTrue(make_edit(self.ben, edit))
        self.ben.commit()
        self.anna = self.planning("day", 0, "anna")
        self.board = Board(self.anna)
        self.board.begin()

    def press(self, *keys):
        for key in keys:
            self.board.press(key)
            text_of(self.board)

    def see(self, week):
        """A week as anna sees it, after a look for news."""
        self.press("v", *week, "enter")
        self.board.tick()
        return text_of(self.board)

    def test_marks(self):
        self.assertNotIn("@ben", self.see("course geo"))
        make_edit(self.ben, "move geo 0 1 B 1 2")
        told = self.see("course geo")
        self.assertEqual(told.count("@ben"), 2)
        self.assertIn("week of course geo: 1 lecture missing; at work on it: ben", told)
        self.assertRegex(told, r"ben has a draft open on it, since \d\d:\d\d\.")
        self.assertEqual(self.see("room A").count("@ben"), 1)
        self.assertEqual(self.see("teacher t1").count("@ben"), 0)
        # what is taken back is no work any more, and what is committed neither
        self.ben.undo()
        self.assertNotIn("@ben", self.see("course geo"))
        make_edit(self.ben, "move geo 0 1 B 1 2")
        self.assertIn("@ben", self.see("course geo"))
        self.ben.commit()
        self.assertNotIn("@ben", self.see("course geo"))

    def test_away(self):
        """A draft that is left open is marked still; who comes back has it since he opened it."""
        make_edit(self.ben, "move geo 0 1 B 1 2")
        since = self.anna.courtesies
        since.read_on()
        (work,) = since.works()
        self.ben.seat.go()
        self.assertIn("@ben", self.see("course geo"))
        ben = self.planning("day", 1, "ben")
        self.anna.tick()
        self.assertEqual(since.works(), [work])
        ben.abandon()
        self.assertNotIn("@ben", self.see("course geo"))

    def test_who_is_where(self):
        make_edit(self.ben, "move geo 0 1 B 1 2")
        self.press("i")
        lines = text_of(self.board).split("\n")[2:5]
        self.assertRegex(lines[0], r"seat 0: anna, since \d\d:\d\d; no draft open")
        self.assertRegex(
            lines[1], r"seat 1: ben, since \d\d:\d\d; a draft of ben since \d\d:\d\d, 1 edit: geo"
        )
        self.assertIn("seat 2: nobody", lines[2])

    def pin(self):
        self.see("course geo")
        self.press("p", *"the hall", "enter")

    def test_pin(self):
        self.pin()
        told = text_of(self.board)
        self.assertIn("geo on day 1, period 2 is pinned: others are asked first", told)
        self.assertIn("pin", told)
        # the other one sees it, and is asked before he picks it up
        board = Board(self.ben)
        board.begin()
        for key in ["v", *"course geo", "enter"]:
            board.press(key)
        board.tick()
        self.assertRegex(text_of(board), r"Pinned by anna, \d\d:\d\d \(the hall\)\.")
        board.press("enter")
        self.assertIn("geo on day 1, period 2 is pinned: go on all the same?", text_of(board))
        board.press("escape")
        self.assertIsNone(board.work.carry)
        board.press("enter")
        board.press("y")
        self.assertIn("geo is picked up", text_of(board))
        board.press("escape")
        board.press("x")
        self.assertIn("go on all the same?", text_of(board))
        self.assertFalse(self.ben.is_open)
        board.press("y")
        self.assertEqual(lines_of(self.ben.edits()), ["drop geo 0 1"])
        # nothing is refused for it
        self.ben.commit()
        self.assertEqual(len(self.ben.minutes.entries), 2)

    def test_unpin(self):
        self.pin()
        self.press("p")
        self.assertIn("is pinned: take the pin off?", text_of(self.board))
        self.press("y")
        self.assertEqual(read_pins(Day(self.path("day"))), {})
        # what is not committed is not pinned
        make_edit(self.anna, "move geo 0 1 B 1 2")
        self.see("course geo")
        self.press("tab", "p")
        self.assertIn("geo is not committed there: commit it first", text_of(self.board))
        self.assertEqual(read_pins(Day(self.path("day"))), {})

    def test_swap(self):
        """A pinned lecture is asked about before another one changes places with it."""
        self.pin()
        self.see("course alg")
        self.press("s", "b", "enter")
        self.assertIn("geo on day 1, period 2 is pinned: go on all the same?", text_of(self.board))
        self.press("escape")
        self.assertFalse(self.anna.is_open)
        self.press("enter", "y")
        self.assertEqual(lines_of(self.anna.edits()), ["swap alg 1 1 geo 0 1"])

    def test_status_and_next_day(self):
        self.pin()
        printed = self.office("status", self.path("day"))[1]
        last = printed.split("\n")[-2]
        self.assertRegex(last, r"^pinned: geo on day 1, period 2, by anna, [-0-9: ]+: the hall$")
        self.anna.seat.go()
        self.ben.seat.go()
        self.listed("day")
        self.open("next", "--after", self.path("day"))
        self.assertEqual(read_pins(Day(self.path("next"))), read_pins(Day(self.path("day"))))

    def test_names_change(self):
        """Names that change are taken over; wrong ones are not."""
        self.assertIn("week of course geo", self.see("course geo"))
        head = "kind,code,name\n"
        self.write("day/labels.csv", head + "course,geo,Geometry\n")
        self.assertTrue(self.board.tick())
        self.assertIn("week of course Geometry", text_of(self.board))
        self.assertFalse(self.board.tick())
        self.write("day/labels.csv", head + "planet,geo,Mars\n")
        self.assertFalse(self.board.tick())
        self.assertIn("week of course Geometry", text_of(self.board))
