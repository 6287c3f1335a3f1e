"""Who types names, words and accents at the page publishes nothing, and loses nothing."""
import random
import signal

from served import BOX, DONE, EDITS, SPRING, SPRING_SOL, BrowserTest, cell, skip_without_browser

from office.day.folder import Day
from office.day.parts import read_entries

FROM, BEST = (4, 1), (4, 3)
WORDS = "analysis quantum chemistry calculus probability statistics networks Zoë Gauß Müller yes"


@skip_without_browser
class Typist(BrowserTest):
    def setUp(self):
        super().setUp()
        self.open("day", SPRING, "2", "--start", SPRING_SOL)
        self.server = self.serve("day")
        self.anna = self.planner()
        self.show(self.anna, "c0109")
        self.move(self.anna, FROM, BEST)

    def accepted(self):
        return len(read_entries(Day(self.path("day"))))

    def to_week(self):
        self.anna.run("document.querySelector('#week [tabindex=\"0\"]').focus()")

    def test_name_is_asked_about(self):
        """A name, with the key that opens the box, is asked about; the same once more is taken."""
        anna = self.anna
        self.commit(anna, "0109")
        anna.sees("c0109 is a name or a word", "#box")
        self.assertEqual(self.accepted(), 0)
        anna.type("x")
        anna.press("Enter")
        anna.sees("c0109x is a name or a word", "#box")
        self.assertEqual(self.accepted(), 0)
        anna.press("Escape")
        self.committed(anna, "the hall is free")
        self.assertEqual(self.accepted(), 1)

    def test_typed_before_the_box(self):
        """What was typed before the box of a commit has come is in it, and is asked about."""
        anna = self.anna
        self.to_week()
        self.server.send_signal(signal.SIGSTOP)
        try:
            anna.press(*"chemistry", "Enter")
        finally:
            self.server.send_signal(signal.SIGCONT)
        anna.wait(BOX)
        anna.wait(DONE)
        self.assertEqual(anna.run("return document.getElementById('why').value"), "hemistry")
        anna.press("Enter")
        anna.sees("chemistry is a name or a word", "#box")
        self.assertEqual(self.accepted(), 0)

    def test_same_once_more(self):
        self.commit(self.anna, "0109")
        self.anna.sees("c0109 is a name or a word", "#box")
        self.anna.press("Enter")
        self.anna.sees("Committed as draft", "#said")

    def test_given_up(self):
        """A name that begins with the key of giving up answers nothing; giving up puts aside."""
        anna = self.anna
        self.to_week()
        anna.type("analysis")
        # the question may come behind the letters
        anna.wait(BOX)
        anna.press("Enter")
        anna.wait(f"return !({BOX[7:]}) && {DONE[7:]}")
        self.assertEqual(anna.run(EDITS), 1)
        self.to_week()
        anna.press("a")
        anna.wait(BOX)
        anna.press("y")
        anna.sees("Put aside as given up", "#said")
        anna.press("N")
        anna.sees("given up", "#box")
        anna.press("Enter")
        anna.sees("Make it my draft", "#box")
        anna.press("Enter")
        anna.sees("your draft: 1 edit", "#costs")

    def test_leaving(self):
        """Leaving asks where a draft is open; who has left comes back by a button."""
        anna = self.anna
        self.to_week()
        anna.type("quantum")
        # the question may come behind the letters
        anna.wait(BOX)
        anna.press("Enter")
        anna.wait(f"return !({BOX[7:]}) && {DONE[7:]}")
        self.assertEqual(anna.run(EDITS), 1)
        self.to_week()
        anna.press("q")
        anna.sees("Leave the seat?", "#box")
        anna.press("y")
        anna.sees("You have left the seat.", "#banner")
        anna.click("#banner button")
        anna.sees("your draft: 1 edit", "#costs")

    def test_any_edit(self):
        """Each edit has a button that takes it back, and Ctrl-Z takes back the last one."""
        anna = self.anna
        self.show(anna, "c0001")
        anna.click(cell((1, 2)))
        anna.press("x")
        anna.sees("your draft: 2 edits", "#costs")
        anna.click("#draft .edits li:first-child button")
        anna.sees("your draft: 1 edit", "#costs")
        anna.sees("c0001: taken out", "#draft .edits")
        anna.click("#draft .gone button")
        anna.sees("your draft: 2 edits", "#costs")
        self.to_week()
        anna.press("Control+z")
        anna.sees("your draft: 1 edit", "#costs")
        anna.press("Control+y")
        anna.sees("your draft: 2 edits", "#costs")

    def test_drawn_words(self):
        draw = random.Random(87)
        names = [*WORDS.split(), "c0109", "t067", "r04", "q000"]
        for _ in range(12):
            self.to_week()
            self.anna.type(draw.choice(names))
            self.anna.press("Enter")
        self.anna.press("Escape")
        self.assertEqual(self.accepted(), 0)
        self.is_clean(self.anna)
