"""A planner at a browser: keyboard, pointers, windows, others."""
import json
import os
import re
import signal
import time

from served import (
    BOX,
    SPRING,
    SPRING_SOL,
    BrowserTest,
    cell,
    skip_without_browser,
    wait_until,
)

from office.day.commit_notes import CommitNote, keep_commit_note
from office.day.folder import Day

# a lecture of c0109, where it is cheapest, and what ben does with it
FROM, BEST = (4, 1), (4, 3)
# a clock that is an hour ahead
AHEAD = "const now = Date.now; Date.now = () => now() + 3600000;"
BEN = "open\nmove c0109 4 1 r09 4 2\ncommit\n"


@skip_without_browser
class Seats(BrowserTest):
    def setUp(self):
        super().setUp()
        self.open("day", SPRING, "3", "--start", SPRING_SOL)
        self.server = self.serve("day")

    def port(self):
        return self.address().split(":")[1]

    def test_keyboard_alone(self):
        """From the link to a draft that is made again, without a pointer; the focus is never
        lost."""
        anna = self.planner()
        steps = [
            (["/", *"c0109", "Enter"], "c0109", "#week-title"),
            (["ArrowRight"] * 4 + ["ArrowUp"] * 2 + ["Enter"], "is held", "#inspector"),
            (["s"], "is held, to swap", "#inspector"),
            (["s"], "is held c0109", "#inspector"),
            (["Escape"], "Move Enter", "#inspector"),
            (["Enter", "b", "Enter"], "your draft: 1 edit", "#costs"),
            (["x"], "missing 1", "#costs"),
            (["u"], "missing 0", "#costs"),
            (["w"], "t067", "#week-title"),
            (["e"], "The edits of your draft", "#box"),
            (["Escape"], "your draft: 1 edit", "#costs"),
            (["?"], "Keys and signs", "#box"),
            (["Escape"], "your draft: 1 edit", "#costs"),
        ]
        for keys, told, place in steps:
            anna.press(*keys)
            if told != "is held c0109":
                anna.sees(told, place)
            self.has_focus(anna)
        self.sit("day", 1, BEN, "--name", "ben")
        anna.sees("ben", "#news")
        anna.sees("1 accepted since", "#costs")
        self.commit(anna)
        anna.sees("Your draft is stale: nothing is lost", "#box")
        anna.sees("ben", "#box")
        self.has_focus(anna)
        # the letter that the box names
        anna.sees("R makes them again", "#box")
        anna.press("r")
        anna.sees("made again, none committed yet", "#box")
        anna.press("Escape")
        anna.wait(f"return !({BOX[7:]})")
        self.has_focus(anna)
        self.is_clean(anna)

    def test_panels_by_keyboard(self):
        """Each button of the panels by Tab and Enter; the focus stays where it was, or goes to the
        week."""
        anna = self.planner()
        self.show(anna, "c0109")
        anna.click(cell(FROM))
        anna.sees("5 of 5 placed", "#inspector")
        anna.run("document.querySelector('[data-id=\"swap\"]').focus()")
        anna.press("Enter")
        anna.sees("is held, to swap", "#inspector")
        self.has_focus(anna)
        anna.press("Escape")
        anna.wait("return !document.querySelector('#week.holding')")
        anna.press("o")
        anna.sees("rooms by price", ".menu-box")
        anna.press("ArrowDown", "Enter")
        anna.sees("your draft: 1 edit", "#costs")
        self.has_focus(anna)
        anna.run("document.querySelector('#draft [data-id=\"undo 0\"]').focus()")
        anna.press("Enter")
        anna.sees("your draft: 0 edits", "#costs")
        self.has_focus(anna)
        anna.press("x")
        anna.sees("missing 1", "#costs")
        anna.press("m")
        self.assertEqual(anna.run("return document.activeElement.dataset.missing"), "c0109")
        anna.press("Enter")
        anna.sees("is held", "#inspector")
        anna.press("b", "Enter")
        anna.sees("missing 0", "#costs")
        self.has_focus(anna)
        self.is_clean(anna)

    def test_keys_do_nothing_elsewhere(self):
        """Letters are keys in the week alone; with Alt or Control they are none."""
        anna = self.planner()
        self.show(anna, "c0109")
        self.move(anna, FROM, BEST)
        anna.run("document.querySelector('#help-button').focus()")
        anna.press("x", "u", "c", "a")
        anna.press("/")
        anna.type("c u x a")
        anna.press("Escape")
        anna.press("Alt+x", "Control+u", "Alt+c")
        time.sleep(0.3)
        self.assertFalse(anna.run(BOX))
        anna.sees("your draft: 1 edit", "#costs")
        # keys that are typed ahead do nothing behind a box that comes up
        anna.press("c", "x", "x", "u")
        anna.wait(BOX)
        anna.press("Escape")
        anna.sees("your draft: 1 edit", "#costs")
        self.is_clean(anna)

    def test_two_windows(self):
        """Two windows of a seat are one: an edit of one is in the other, and a commit carries what
        its box has shown."""
        one, two = self.planner(), self.planner()
        two.sees("anna (you)", "#people")
        self.show(one, "c0109")
        self.show(two, "q022")
        self.move(one, FROM, BEST)
        two.sees("your draft: 1 edit", "#costs")
        one.press("c")
        one.wait(BOX)
        two.click(cell((1, 4)))
        two.press("x")
        two.sees("your draft: 2 edits", "#costs")
        one.press("Enter")
        one.sees("other edits by now", "#said")
        with open(self.path("day/minutes")) as file:
            self.assertEqual(file.read(), "")
        two.press("u")
        one.sees("your draft: 1 edit", "#costs")
        self.committed(one)
        two.sees("no draft open", "#costs")
        for each in (one, two):
            self.is_clean(each)

    def test_terminal_and_window(self):
        """A terminal and a window at one seat refuse each other by name; the page comes in by
        itself when the seat is free."""
        anna = self.planner()
        status, _, said = self.office("sit", self.path("day"), "0", "--name", "cleo")
        self.assertEqual(status, 3)
        self.assertIn("anna sits at seat 0", said)
        ben = self.start("sit", self.path("day"), "1", "--name", "ben")
        ben.stdin.write("show cost\n")
        ben.stdin.flush()
        ben.stdout.readline()
        anna.sees("ben", "#people")
        other = self.browser()
        other.go(self.links["seat 1"])
        other.wait(BOX)
        other.type("dora")
        other.press("Enter")
        other.sees("ben sits at seat 1", "#banner")
        ben.stdin.close()
        ben.wait(60)
        other.sees("dora (you)", "#people")
        self.assertEqual(other.text("#banner"), "")

    def test_reader(self):
        """Who reads sees the week as it stands, live, and neither seats nor reasons."""
        anna, reader = self.planner(who="Anna Berg"), self.browser()
        reader.go(self.links["reader"])
        reader.wait("return performance.getEntriesByName('ready').length > 0")
        self.show(reader, "c0109")
        reader.sees("r01", cell(FROM))
        self.show(anna, "c0109")
        self.move(anna, FROM, BEST)
        self.committed(anna, "a secret reason")
        reader.sees("r04", cell(BEST))
        seen = reader.run("return document.documentElement.outerHTML")
        for secret in ("Anna", "secret", "draft", "seat 0"):
            self.assertNotIn(secret, seen)
        reader.press("ArrowLeft", "Enter", "x", "c")
        self.is_clean(reader)
        # the seat's key opens no reading page of its own, and the other way round
        self.assertEqual(self.ask("show", {"view": ["course", "c0109"]}, "reader")[0], 410)

    def test_page_comes_back(self):
        """A server that was killed is begun again: the page comes back with draft and hold."""
        anna = self.planner()
        self.show(anna, "c0109")
        self.move(anna, FROM, BEST)
        self.pick_up(anna, BEST)
        port = self.port()
        self.server.kill()
        self.server.wait()
        anna.sees("does not answer", "#banner")
        self.serve("day", "--port", port)
        anna.wait("return document.getElementById('banner').hidden")
        anna.sees("your draft: 1 edit", "#costs")
        anna.sees("is held", "#inspector")
        self.assertIn("c0109", anna.text("#week-title"))
        anna.press("Escape")
        self.committed(anna)
        self.assertIn("r01 -> day 5, period 4, r04", self.office("log", self.path("day"))[1])

    def test_page_is_left(self):
        """A page that is left is no window any more, however often it is opened again, and one that
        is gone back to goes on."""
        anna = self.planner()
        for _ in range(5):
            self.sit_by(anna)
        anna.command("POST", "url", {"url": "about:blank"})
        anna.command("POST", "back", {})
        anna.sees("anna (you)", "#people")
        self.show(anna, "c0109")
        self.move(anna, FROM, BEST)
        self.sit("day", 1, BEN, "--name", "ben")
        anna.sees("ben", "#news")
        # a reason that is written a little later
        note = CommitNote(1, "2026-11-30T10:15:00.000+0100", 1, "ben", "exam")
        keep_commit_note(Day(self.path("day")), note)
        anna.sees("“exam”", "#news")
        self.assertEqual(anna.run("return document.querySelectorAll('.drafts > li').length"), 1)
        self.is_clean(anna)

    def test_killed_during_a_commit(self):
        """A commit under whose way the server is killed is on the disk or is not, and the page says
        which."""
        anna = self.planner()
        self.show(anna, "c0109")
        self.move(anna, FROM, BEST)
        anna.press("c")
        anna.wait(BOX)
        port = self.port()
        anna.press("Enter")
        self.server.kill()
        self.server.wait()
        self.serve("day", "--port", port)
        # it begins anew when the desk has answered all that was under way
        anna.wait("return performance.getEntriesByName('ready').length > 1")
        anna.wait("return document.getElementById('banner').hidden")
        with open(self.path("day/minutes")) as file:
            is_written = file.read() != ""
        anna.sees("no draft open" if is_written else "your draft: 1 edit", "#costs")
        anna.sees("draft 1" if is_written else "Nothing yet", "#news")

    def test_desk_dies(self):
        anna = self.planner()
        self.show(anna, "c0109")
        self.move(anna, FROM, BEST)
        os.kill(self.desk_of("day"), signal.SIGKILL)
        anna.sees("committed drafts are on the disk", "#banner")

    def test_desk_is_slow(self):
        """A desk that does not answer is told, with the time, and the page goes on when it does."""
        anna = self.planner()
        self.show(anna, "c0109")
        desk = self.desk_of("day")
        os.kill(desk, signal.SIGSTOP)
        try:
            self.press_in_week(anna, "Enter")
            anna.sees("has not answered", "#banner")
        finally:
            os.kill(desk, signal.SIGCONT)
        anna.sees("is held", "#inspector")
        anna.wait("return document.getElementById('banner').hidden")
        self.is_clean(anna)

    def press_in_week(self, browser, key):
        browser.run("document.querySelector('#week [tabindex=\"0\"]').focus()")
        browser.press(key)

    def test_office_closes(self):
        """The page counts down, whatever its clock says, and says in the end that the office has
        closed."""
        anna = self.browser(words=["--lang=en"])
        anna.cdp("Page.addScriptToEvaluateOnNewDocument", source=AHEAD)
        self.sit_by(anna)
        self.keep_banners(anna)
        closing = self.start("close", self.path("day"), "--wait", "6")
        anna.sees("The office has closed", "#banner")
        said = anna.run("return banners")
        left = [int(one) for one in re.findall(r"The office closes in (\d+) s", str(said))]
        self.assertTrue(left, said)
        self.assertLess(max(left), 7)
        self.assertEqual(closing.wait(60), 0)
        self.assertTrue(wait_until(lambda: self.server.poll() is not None))
        self.assertEqual(self.server.returncode, 0)

    def test_offer_of_an_earlier_day(self):
        """Edits that an earlier day has left are offered, as at a terminal."""
        anna = self.planner()
        self.show(anna, "c0109")
        self.move(anna, FROM, BEST)
        self.assertEqual(self.office("close", self.path("day"), "--wait", "0")[0], 0)
        self.open("next", "--after", self.path("day"))
        self.serve("next")
        again = self.planner()
        again.sees("not accepted: make them again?", "#box")
        again.press("Enter")
        again.sees("your draft: 1 edit", "#costs")
        self.assertEqual(json.dumps(again.complaints()), "[]")
