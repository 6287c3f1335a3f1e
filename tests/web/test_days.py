"""Whole days: two browsers and a terminal, and days of drawn keys and clicks."""
import os
import random
import re
import time

from served import (
    BOX,
    DONE,
    OFFICE,
    READY,
    SMALL,
    SPRING,
    SPRING_SOL,
    BrowserTest,
    cell,
    skip_without_browser,
)
from terminal import Terminals, has_tmux

FROM, BEST = (4, 1), (4, 3)
# as many drawn days, and acts of each
DAYS, ACTS = (20, 300) if os.environ.get("FULL") else (2, 120)
KEYS = (
    ["ArrowLeft", "ArrowRight", "ArrowUp", "ArrowDown"] * 4
    + ["Enter"] * 8
    + list("bsxuowehmipfra") * 2
    + ["c"] * 3
    + list("nNU!?:P")
    + ["Escape"] * 4
    + ["Tab", "Shift+Tab", "Home", "End", "Delete", "Space", "/"]
)
# whether a box or a list is in front, something is held, or typed in the search
BUSY = """
return document.activeElement.matches('input')
  || !!document.querySelector('dialog[open], .menu-box, #week.holding');
"""
# whether the seat was left
LEFT = "return !!document.querySelector('#banner [data-id=\"sit\"]')"
HEARD = "return Number(document.querySelector('#news .count')?.innerText || 0) === arguments[0]"
# what a week shows: the slots of its lectures with their rooms
SHOWN = """
return [...document.querySelectorAll('#week .cell')].flatMap((one) =>
  [...one.querySelectorAll('.card')].map((card) =>
    [one.dataset.at, card.querySelector('.room').textContent].join(' ')));
"""


@skip_without_browser
class Days(BrowserTest):
    def test_day_of_three(self):
        """Two at browsers and one at a terminal, from open to close; the journal agrees, and who
        changed what and why is one line."""
        self.open("day", SPRING, "3", "--start", SPRING_SOL, "--web", "--port", "0")
        self.links = self.printed_links("day")
        anna, ben = self.planner(), self.planner("seat 1", "ben")
        terminal = None
        if has_tmux():
            terminals = Terminals(self.environment)
            self.addCleanup(terminals.end)
            terminal = terminals.open([OFFICE, "sit", self.path("day"), "2", "--name", "cleo"])
            terminal.wait("seat 2 cleo")
            anna.sees("cleo", "#people")
            terminal.press("v", *"c0014", "Enter", "s", "b", "Enter", "c")
            terminal.wait("Why?")
            terminal.press(*"exam", "Enter")
            # behind the key of the box it may be a word; the same once more is the reason
            terminal.wait("cexam is a name or a word")
            terminal.press("Enter")
            terminal.wait("Committed as draft 1")
            ben.sees("“exam”", "#news")
        else:
            self.sit("day", 2, "open\nreroom c0014 r00 0 0\nmove c0014 0 0 r00 4 4\n")
        self.show(anna, "c0109")
        self.move(anna, FROM, BEST)
        self.show(ben, "c0109")
        ben.drag("mouse", cell((3, 2)) + " .card", cell((3, 3)))
        ben.sees("your draft: 1 edit", "#costs")
        self.committed(ben, "hall <1> & more")
        anna.sees("ben", "#news")
        self.commit(anna)
        anna.sees("Your draft is stale: nothing is lost", "#box")
        anna.sees("ben", "#box")
        anna.press("Enter")
        anna.sees("made again, none committed yet", "#said")
        self.committed(anna, "nearer")
        if terminal:
            terminal.wait("accepted today" if "accepted today" in terminal.text() else "seat 2")
        log = self.office("log", self.path("day"), "c0109")[1]
        self.assertIn("nearer", log)
        self.assertIn("hall <1> & more", log)
        for one in (anna, ben):
            self.is_clean(one)
        self.keep_banners(anna)
        closing = self.start("close", self.path("day"), "--wait", "4")
        anna.sees("The office has closed", "#banner")
        self.assertIn("The office closes in", str(anna.run("return banners")))
        printed, _ = closing.communicate(timeout=60)
        self.assertIn("the audit agrees", printed)

    def printed_links(self, day):
        """The links of seats that `open --web` has served."""
        while True:
            status, printed, _ = self.office("web", self.path(day), "--links")
            if status == 0:
                return dict(re.findall(r"  (seat \d+|reader) +(\S+)\n", printed))
            time.sleep(0.2)

    def drawn_day(self, seed):
        """Drawn keys and clicks: never an error, and at the end what is seen is what is listed."""
        draw = random.Random(seed)
        big = seed % 2 == 0
        day = f"day{seed}"
        start = ["--start", SPRING_SOL] if big else []
        self.open(day, SPRING if big else SMALL, "2", *start)
        server = self.serve(day)
        windows = [self.planner(), self.planner("seat 1", "ben")]
        for window in windows:
            window.cdp("Browser.setDownloadBehavior", behavior="deny")
        done = 0
        while done < ACTS:
            window = draw.choice(windows)
            self.sit_again(window)
            count = draw.randint(1, 6)
            if draw.random() < 0.2:
                self.click_somewhere(window, draw)
            else:
                window.press(*draw.choices(KEYS, k=count))
            done += count
            if window.run(BOX) and draw.random() < 0.5:
                window.press(draw.choice(["Enter", "Escape", "Tab"]))
            self.assertEqual(window.run("return window.blocked"), [], f"seed {seed}, act {done}")
        for window in windows:
            self.settle(window)
        # what was committed last is heard of
        count = self.drafts_in(day)
        for window in windows:
            window.wait(HEARD, count)
        courses = ["c0109", "c0097", "c0014", "c0084"] if big else ["geo", "alg", "top"]
        seen = {course: self.seen_at_the_end(windows[0], course) for course in courses}
        for window in windows:
            self.is_clean(window)
        self.end(server)
        listed = {course: [] for course in courses}
        for line in self.listed(day).split("\n"):
            words = line.split()
            if words and words[0] in listed:
                listed[words[0]].append(f"{words[2]},{words[3]} {words[1]}")
        self.assertEqual(seen, {course: sorted(found) for course, found in listed.items()})

    def click_somewhere(self, window, draw):
        """Clicks a cell, or a button that is seen."""
        if draw.random() < 0.5 and not window.run(BOX):
            slots = window.run("return document.querySelectorAll('.cell').length")
            number = draw.randrange(slots)
            window.run("document.querySelectorAll('.cell')[arguments[0]].click()", number)
            return
        window.run(
            "const all = [...document.querySelectorAll('button')].filter((one) =>"
            " one.checkVisibility() && !one.disabled"
            " && (!document.querySelector('dialog[open]') || one.closest('dialog')));"
            "if (all.length) all[arguments[0] % all.length].click()",
            draw.randrange(1000),
        )

    def sit_again(self, window):
        """Who has left the seat sits down again."""
        if window.run(LEFT):
            window.click("#banner button")
            window.wait(f"return !({LEFT[7:]}) && ({READY[7:]})")

    def settle(self, window):
        """All is done that was pressed, and nothing is in front or held."""
        until = time.monotonic() + 30
        while True:
            window.wait(DONE)
            self.sit_again(window)
            if not window.run(BUSY):
                return
            self.assertLess(time.monotonic(), until, window.seen())
            window.run(f"if ({BOX[7:]}) document.getElementById('box').focus()")
            window.press("Escape")

    def seen_at_the_end(self, window, course):
        """The week of a course on the newest timetable: what is open is given up."""
        self.settle(window)
        window.run("document.querySelector('#week [tabindex=\"0\"]').focus()")
        if "draft" in window.text("#costs .state") and "no draft" not in window.text("#costs"):
            window.press("a")
            window.wait(BOX)
            # Enter alone goes back
            window.press("y")
            window.sees("no draft open", "#costs")
            window.wait(DONE)
        self.show(window, course)
        window.wait(
            "return document.querySelector('#week-title .kind').textContent === 'course'"
            " || (document.querySelector('#week [tabindex=\"0\"]').focus(), false)"
        )
        return sorted(window.run(SHOWN))


def drawn(seed):
    """The test of one drawn day, which has a test's time for itself."""
    return lambda days: days.drawn_day(seed)


for number in range(DAYS):
    setattr(Days, f"test_drawn_day_{number}", drawn(number))
