"""What is held: by mouse, pen and finger, and while others change what stands there."""
import signal
import time

from served import DONE, EDITS, SPRING, SPRING_SOL, BrowserTest, cell, skip_without_browser

# a lecture of c0109, and where it is cheapest
FROM, BEST = (4, 1), (4, 3)
# nothing is held, and all is done
FREE = f"return !document.querySelector('.held-card, #week.holding') && {DONE[7:]}"


@skip_without_browser
class Hand(BrowserTest):
    def setUp(self):
        super().setUp()
        self.open("day", SPRING, "3", "--start", SPRING_SOL)
        self.server = self.serve("day")

    def test_drag(self):
        """By mouse and by pen: the price beside the hand, Escape, and the window's edge."""
        anna = self.planner()
        self.show(anna, "c0109")
        for kind in ("mouse", "pen"):
            anna.drag(kind, cell(FROM) + " .card", cell(BEST), drop=False)
            anna.sees("−257 r04", ".held-card")
            anna.sees("day 5, period 4 saves 257", "#tray")
            anna.press("Escape")
            anna.wait(FREE)
            anna.pointer(kind, [("up",)])
            anna.wait(FREE)
            self.assertEqual(anna.run(EDITS), 0)
            # let go outside of the week
            anna.drag(kind, cell(FROM) + " .card", cell(BEST), (1270, 4))
            anna.wait(FREE)
            self.assertEqual(anna.run(EDITS), 0)
            anna.drag(kind, cell(FROM) + " .card", cell(BEST))
            anna.sees("your draft: 1 edit", "#costs")
            anna.sees("−257", "#draft")
            anna.press("u")
            anna.sees("your draft: 0 edits", "#costs")
            anna.wait(FREE)
        # a lecture that cannot stand there stays where it was
        anna.drag("mouse", cell(FROM) + " .card", cell((0, 0)))
        anna.sees("cannot stand", "#said")
        self.assertEqual(anna.run(EDITS), 0)
        self.is_clean(anna)

    def test_dragged_before_the_answer(self):
        """A drag that begins before the office has answered the one before waits for its turn."""
        anna = self.planner()
        self.show(anna, "c0109")
        self.server.send_signal(signal.SIGSTOP)
        try:
            anna.drag("mouse", cell(FROM) + " .card", cell(BEST), (1270, 4))
            anna.drag("mouse", cell(FROM) + " .card", cell(BEST))
        finally:
            self.server.send_signal(signal.SIGCONT)
        anna.sees("your draft: 1 edit", "#costs")
        anna.wait(FREE)
        self.assertEqual(anna.run(EDITS), 1)
        self.is_clean(anna)

    def test_missing_is_dragged_in(self):
        anna = self.planner()
        self.show(anna, "c0109")
        anna.click(cell(FROM))
        anna.press("x")
        anna.sees("missing 1", "#costs")
        anna.drag("mouse", "[data-missing='c0109'] .course", cell(BEST))
        anna.sees("missing 0", "#costs")
        anna.sees("your draft: 2 edits", "#costs")
        self.is_clean(anna)

    def test_finger(self):
        """A finger drags by the grip; elsewhere it scrolls. A drag that the system breaks off
        changes nothing."""
        anna = self.planner(width=800, height=1100, touch=True)
        self.show(anna, "c0109")
        anna.drag("touch", cell(FROM) + " .course", cell(BEST))
        time.sleep(0.3)
        self.assertEqual(anna.run(EDITS), 0)
        at = anna.middle(cell(FROM) + " .grip")
        for kind, points in (
            ("touchStart", [at]),
            ("touchMove", [(at[0] + 20, at[1] + 40)]),
            ("touchMove", [(at[0], at[1] + 150)]),
            ("touchCancel", []),
        ):
            told = [{"x": x, "y": y} for x, y in points]
            anna.cdp("Input.dispatchTouchEvent", type=kind, touchPoints=told)
        anna.wait(FREE)
        self.assertEqual(anna.run(EDITS), 0)
        anna.drag("touch", cell(FROM) + " .grip", cell(BEST))
        anna.sees("your draft: 1 edit", "#costs")
        self.is_clean(anna)

    def test_conflict(self):
        """A hold is renewed under the hand; what others have moved is held no more."""
        anna, ben = self.planner(), self.planner("seat 1", "ben")
        self.show(anna, "c0109")
        self.pick_up(anna, FROM)
        anna.sees("−257", cell(BEST))
        anna.sees("Cheapest: −257 in r04", "#inspector")
        self.show(ben, "r04")
        ben.click(cell((1, 4)))
        self.sit("day", 2, "open\nswap c0109 4 1 c0078 3 1\ncommit\n", "--name", "cleo")
        anna.sees("cleo", "#news")
        anna.wait("return !document.querySelector('#week.holding')")
        anna.sees("c0109", "#said")
        # ben, who works elsewhere, sees it, too
        ben.sees("cleo", "#news")
        for one in (anna, ben):
            self.is_clean(one)

    def test_hand_that_rests(self):
        """What is drawn under a hand that rests leaves its mark, and the slot of the mark is where
        it lets go."""
        anna = self.planner()
        self.show(anna, "c0109")
        anna.drag("mouse", cell(FROM) + " .card", cell(BEST), drop=False)
        anna.sees("−257 r04", ".held-card")
        self.sit("day", 2, "open\nreroom c0015 r04 4 3\ncommit\n", "--name", "cleo")
        anna.sees("r15", cell(BEST))
        marked = "return document.querySelector(arguments[0]).matches('.over')"
        self.assertTrue(anna.run(marked, cell(BEST)))
        anna.sees("r15", ".held-card")
        anna.pointer("mouse", [("up",)])
        anna.sees("r15", "#draft")
        self.is_clean(anna)

    def test_who_has_changed_it(self):
        """A slot names who has changed it in the weeks where he has, and says what stands there now
        if that is not what is drawn."""
        anna = self.planner()
        self.show(anna, "r12")
        self.sit("day", 1, "open\nmove c0109 4 1 r09 4 2\ncommit\n", "--name", "ben")
        anna.sees("ben", "#news")
        self.assertEqual(anna.run("return document.querySelectorAll('.cell .who').length"), 0)
        self.show(anna, "c0109")
        anna.sees("ben", cell((4, 2)) + " .who")
        anna.sees("c0109 ⠿ r09", cell((4, 2)))
        self.assertEqual(anna.run("return document.querySelectorAll('.cell .now').length"), 0)
        anna.click(cell((3, 2)))
        anna.press("x")
        anna.sees("missing 1", "#costs")
        self.sit("day", 1, "open\nmove c0109 4 2 r01 4 1\ncommit\n", "--name", "ben")
        anna.sees("now empty", cell((4, 2)))
        anna.sees("now c0109 r01", cell((4, 1)))
        self.is_clean(anna)

    def test_hold_is_renewed(self):
        """What others change under the hand has another price at once, and is put down at that."""
        anna = self.planner()
        self.show(anna, "c0109")
        self.pick_up(anna, FROM)
        anna.sees("−257", cell(BEST))
        self.sit("day", 2, "open\nreroom c0015 r04 4 3\ncommit\n", "--name", "cleo")
        anna.sees("r15", cell(BEST))
        self.assertNotIn("−257", anna.text(cell(BEST)))
        anna.sees("is held", "#inspector")
        anna.click(cell(BEST))
        anna.sees("your draft: 1 edit", "#costs")
        anna.sees("r15", "#draft")
        self.is_clean(anna)
