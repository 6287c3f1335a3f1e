"""What is blocked, in browsers: the key, what is seen of it, and how the seats go on when the rules
of the day change."""
import contextlib
import http.client
import signal

from served import (
    BOX,
    DONE,
    EDITS,
    SPRING,
    SPRING_SOL,
    BrowserTest,
    WebTest,
    cell,
    skip_without_browser,
    skip_without_tornado,
)

# a lecture of c0109 in r01, where it is cheapest, and one in r12
FROM, BEST = (4, 1), (4, 3)
HELD = "return !!document.querySelector('#week.holding')"


@skip_without_tornado
class Asked(WebTest):
    def setUp(self):
        super().setUp()
        self.open("day", SPRING, "3", "--start", SPRING_SOL)
        self.server = self.serve("day")

    def test_act_that_comes_too_late(self):
        """What is asked when the rules have changed, and before the page knows it, is not done; the
        page hears of the change, and what is asked then is done under the new rules."""
        lecture = {"course": "c0109", "room": "r01", "at": FROM}
        self.ask("hello", {"name": "anna"})
        connection = http.client.HTTPConnection(self.address(), timeout=60)
        with contextlib.closing(connection):
            connection.request("GET", "/api/news", headers=dict(self.asking(self.key())))
            answer = connection.getresponse()
            self.ask("take_out", {"lecture": lecture})
            self.assertIn("r04", self.offered(4))
            for why in ("heating", "paint"):
                self.server.send_signal(signal.SIGSTOP)
                words = ["block", self.path("day"), "room", "r04", "5" if why == "heating" else "4"]
                self.assertEqual(self.office(*words, "--why", why)[0], 0)
                self.server.send_signal(signal.SIGCONT)
                self.assertEqual(self.ask("pick_up_missing", {"course": "c0109"})[0], 200)
                notice = self.next_event(answer, "notice")["notice"]
                self.assertIn(f": {why} (", notice["text"])
                self.assertIn("your draft is made again: 1 of 1 edits", notice["text"])
            self.assertNotIn("r04", self.offered(4) | self.offered(3))

    def offered(self, day):
        """The rooms that are offered on a day for what is missing of c0109."""
        held = self.ask("pick_up_missing", {"course": "c0109"})[1]["picture"]["held"]
        slots = [one for one in held["slots"] if one["at"][0] == day]
        found = set()
        for one in slots:
            offers = self.ask("offers", {"at": one["at"]})[1]["offers"]
            # the first of them is the one that the week has
            self.assertEqual(offers[:1], one["offers"])
            found |= {code for _, code, _ in offers}
        return found

    def test_block_that_is_asked(self):
        """What is blocked is chosen of what was told; where nothing can be blocked it is said."""
        self.ask("hello", {"name": "anna"})
        self.ask("show", {"view": ["curriculum", "q000"]})
        found = self.ask("act", {"name": "block", "at": [0, 0]})[1]
        self.assertEqual(found["notice"]["code"], "nothing to block")
        self.assertEqual(self.ask("act", {"name": "block", "at": [0, 99]})[0], 400)
        self.ask("show", {"view": ["room", "r04"]})
        question = self.ask("act", {"name": "block", "at": [0, 0]})[1]["question"]
        self.assertIn("block r04 on day 1, period 1", question["choices"][0])
        asked = {"question": question["number"], "choice": 9}
        self.assertEqual(self.ask("answer", asked)[0], 400)


@skip_without_browser
class Blocked(BrowserTest):
    def setUp(self):
        super().setUp()
        self.open("day", SPRING, "3", "--start", SPRING_SOL)
        self.serve("day")

    def block(self, browser, told, why):
        """Blocks by the key, at the cursor."""
        self.choose(browser, told)
        browser.wait("return !!document.getElementById('why')")
        browser.type(why)
        browser.press("Enter")

    def choose(self, browser, told):
        """Chooses what is to be blocked or lifted at the cursor."""
        browser.press("B")
        browser.sees(told, "#box")
        browser.run(
            "[...document.querySelectorAll('.choice')]"
            ".find((one) => one.innerText.startsWith(arguments[0])).focus()",
            told,
        )
        browser.press("Enter")

    def test_key(self):
        """A room is blocked on a day, with a reason: all are told by whom, what stood there is
        missing, the slots say so, and are never offered; and it is lifted."""
        anna, ben = self.planner(), self.planner("seat 1", "ben")
        self.show(anna, "r04")
        anna.click(cell(BEST))
        self.show(ben, "c0109")
        self.block(anna, "block r04 on day 5 (4 lectures", "heating")
        for one in (anna, ben):
            one.sees("r04 is blocked on day 5: heating (anna at seat 0)", "#said")
            one.sees("4 lectures are missing now", "#said")
            one.sees("r04 is blocked on day 5: heating", "#blocked")
            one.sees("stood on day 5", "#box")
            one.press("Enter")
            one.wait(f"return !({BOX[7:]})")
            one.sees("missing 4", "#costs")
        ben.click(cell(FROM))
        ben.press("Enter")
        ben.wait(HELD)
        self.assertNotIn("r04", ben.text(cell(BEST)))
        ben.press("Escape")
        ben.wait(f"return !({HELD[7:]}) && {DONE[7:]}")
        self.show(ben, "r04")
        for period in range(5):
            ben.sees("blocked: heating", cell((4, period)))
        ben.click(cell(BEST))
        ben.sees("r04 is blocked here: heating (anna at seat 0", "#inspector")
        reader = self.browser()
        reader.go(self.links["reader"])
        reader.wait("return performance.getEntriesByName('ready').length > 0")
        self.show(reader, "r04")
        reader.sees("blocked", cell(BEST))
        self.assertNotIn("heating", reader.run("return document.documentElement.outerHTML"))
        self.choose(ben, "lift: r04")
        ben.wait("return !!document.getElementById('why')")
        ben.type("it is warm")
        ben.press("Enter")
        for one in (anna, ben):
            one.sees("r04 is open again on day 5", "#said")
            one.wait("return document.getElementById('blocked').hidden")
        for one in (ben, reader):
            one.wait("return !document.querySelector('#week .blocked-text')")
        for one in (anna, ben, reader):
            self.is_clean(one)

    def test_draft_goes_on(self):
        """Rules that change under an open draft: it is made again, what was refused is told with
        its reason, what was set aside is missing, with where it stood; a reason that is being
        typed stays."""
        anna, ben = self.planner(), self.planner("seat 1", "ben")
        self.show(anna, "c0109")
        self.move(anna, FROM, BEST)
        self.show(ben, "c0097")
        ben.click("#week .card")
        ben.press("x")
        ben.sees("missing 1", "#costs")
        ben.press("c")
        ben.wait(BOX)
        ben.type("a rea")
        status, printed, said = self.office(
            "block", self.path("day"), "room", "r04", "5", "--why", "heating"
        )
        self.assertEqual((status, said), (0, ""), printed)
        anna.sees("0 of 1 edits made again", "#box")
        anna.sees("r04 is blocked then: heating", "#box")
        anna.press("Enter")
        anna.wait(f"return !({BOX[7:]})")
        anna.sees("stood on day 5", "#missing")
        self.assertEqual(ben.run("return document.getElementById('why').value"), "a rea")
        ben.sees("r04 is blocked on day 5: heating", "#said")
        ben.type("son")
        ben.press("Enter")
        ben.sees("Committed as draft 1", "#said")
        anna.sees("“a reason”", "#news")
        # a draft in the new part of the day
        anna.click(cell(FROM))
        anna.press("Enter")
        anna.wait(HELD)
        anna.press("b", "Enter")
        anna.sees("your draft: 1 edit", "#costs")
        self.assertEqual(anna.run(EDITS), 1)
        self.committed(anna)
        for one in (anna, ben):
            self.is_clean(one)
        printed = self.office("close", self.path("day"), "--wait", "0")[1]
        self.assertIn("2 drafts accepted in 2 parts, the audit agrees", printed)
