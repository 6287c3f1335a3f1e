"""Both faces of a planner's work, the screen and the browser, have each action."""
import os
import re
import unittest
from unittest import mock

from served import (
    BOX,
    HERE,
    SMALL,
    SPRING,
    SPRING_SOL,
    BrowserTest,
    Shared,
    cell,
    skip_without_browser,
    skip_without_tornado,
    wait_until,
)

from office.web.action_names import BUTTONS, ELSEWHERE, button, key_table, keys_of
from office.web.verbs import WindowTurn
from office.words.actions import ACTIONS, ANSWERS

ACTS = os.path.join(HERE, "tools/office/web/static/acts.js")
# what the page calls by a button, as the screen has it by the same key twice
BY_BUTTON = {"move"}


def done_by_the_page():
    """The actions for which the page has an act of its own."""
    with open(ACTS, encoding="utf-8") as file:
        table = re.search(r"const own = \{\n(.*?)\n    \}\[name\]", file.read(), re.DOTALL)
    return set(re.findall(r'^      "?([a-z ]+)"?: \(\) =>', table.group(1), re.MULTILINE))


class Tables(unittest.TestCase):
    def test_each_action_has_a_key(self):
        """The key of the screen, where it is a letter or a sign; else another one, or what is said
        to do it."""
        told = {one["name"]: one for one in key_table()}
        self.assertEqual(set(told) | set(ELSEWHERE), {action.name for action in ACTIONS})
        self.assertEqual(set(told) & set(ELSEWHERE), set())
        for action in ACTIONS:
            if len(action.key) == 1:
                self.assertIn(action.key, keys_of(action.name))
            if action.name in told and action.name != "help":
                self.assertTrue(told[action.name]["help"], action.name)

    def test_no_key_has_two(self):
        keys = [key for action in ACTIONS for key in keys_of(action.name)]
        self.assertEqual(len(keys), len(set(keys)))

    def test_each_action_is_done(self):
        """By the page, or by what the page asks."""
        page = done_by_the_page() - BY_BUTTON
        asked = set(WindowTurn(mock.MagicMock(), mock.MagicMock()).acts())
        self.assertEqual(page & asked, set())
        self.assertEqual(page | asked, {action.name for action in ACTIONS} - set(ELSEWHERE))

    def test_each_answer_is_a_button(self):
        names = [one.name for one in ANSWERS]
        told = [button(name) for name in names]
        self.assertEqual(set(names) - set(BUTTONS), set())
        self.assertTrue(all(told))


@skip_without_tornado
class Asked(Shared):
    instance = SMALL

    def test_each_action_is_known(self):
        """What has no act of the page is asked by its name, and is never unknown."""
        self.ask("hello", {"name": "anna"})
        for action in ACTIONS:
            if action.name in done_by_the_page() | set(ELSEWHERE) | {"leave"}:
                continue
            status, found = self.ask("act", {"name": action.name, "at": [0, 0]})
            self.assertEqual(status, 200, (action.name, found))
        status, found = self.ask("print")
        self.assertEqual(status, 200, found)
        self.assertTrue(found["page"]["name"].endswith(".html"))
        self.assertIn("<h1>", found["page"]["text"])

    def test_leaving(self):
        """Who leaves has left the seat at once, by a key or by a line, which no desk hears."""
        for verb, told in (("act", {"name": "leave"}), ("line", {"line": " leave "})):
            self.assertEqual(self.ask("hello", {"name": "cleo"}, "seat 3")[0], 200)
            self.assertTrue(self.ask(verb, told, "seat 3")[1]["left"])
            self.assertEqual(self.ask("act", {"name": "undo"}, "seat 3")[0], 410)
            self.assertEqual(self.host.sit("day", 3, "show cost\n"), ["costs 0 20 0 0"])
        with open(self.path("day/3.log")) as file:
            self.assertNotIn("> leave", file.read())

    def test_typed_commit(self):
        """A commit that is typed has its box, as a key has it."""
        self.ask("hello", {"name": "ben"}, "seat 1")
        self.ask("line", {"line": "place alg A 1 1"}, "seat 1")
        question = self.ask("line", {"line": "commit"}, "seat 1")[1]["question"]
        self.assertEqual(question["answers"][0]["name"], "commit")
        self.ask("close", {}, "seat 1")
        question = self.ask("act", {"name": "abandon"}, "seat 1")[1]["question"]
        told = {"question": question["number"], "answer": "give up"}
        self.assertEqual(self.ask("answer", told, "seat 1")[0], 200)


@skip_without_browser
class Pressed(BrowserTest):
    def setUp(self):
        super().setUp()
        self.open("day", SPRING, "2", "--start", SPRING_SOL)
        self.serve("day")

    def test_page_to_print(self):
        """The week that is seen, with the draft in it, becomes a file of who looks at it."""
        anna = self.planner()
        os.mkdir(self.path("kept"))
        anna.cdp("Browser.setDownloadBehavior", behavior="allow", downloadPath=self.path("kept"))
        self.show(anna, "c0109")
        self.move(anna, (4, 1), (4, 3))
        anna.press("P")
        kept = self.path("kept/day-course-c0109.html")
        self.assertTrue(wait_until(lambda: os.path.exists(kept)))
        anna.sees("day-course-c0109.html", "#said")
        with open(kept, encoding="utf-8") as file:
            page = file.read()
        self.assertIn("<h1>c0109</h1>", page)
        self.assertIn("with 1 edit of a draft", page)
        self.assertEqual(page.count("<article "), 5)
        anna.sees("your draft: 1 edit", "#costs")
        self.is_clean(anna)

    def test_keys_by_pointer(self):
        """Who has no keyboard presses the keys in the box that explains them."""
        anna = self.planner()
        self.show(anna, "c0109")
        anna.click(cell((4, 1)))
        for name, told, place in (
            ("history", "No draft", "#said"),
            ("findings", "What to mend", "#box"),
            ("pin", "Why is it pinned?", "#box"),
            ("who", "anna", "#box"),
            ("swap", "is held, to swap", "#inspector"),
        ):
            anna.click("#help-button")
            anna.sees("Keys and signs", "#box")
            key = f"#box [data-id='{name}']"
            anna.find(key)
            anna.run("document.querySelector(arguments[0]).scrollIntoView({block: 'center'})", key)
            anna.click(key)
            anna.sees(told, place)
            anna.press("Escape")
            anna.wait("return !document.getElementById('box').open")
        self.is_clean(anna)

    def test_typed_line(self):
        """Lines of the desk by hand, as at a terminal."""
        anna = self.planner()
        anna.press(":")
        anna.wait(BOX)
        anna.type("show cost")
        anna.press("Enter")
        anna.sees("costs 8030 0 708 109", "#said")
        anna.press(":")
        anna.wait(BOX)
        anna.type("leave now")
        anna.press("Enter")
        anna.sees("bad line", "#said")
        self.is_clean(anna)

    def test_leaving(self):
        """`q` leaves the seat, and asks where a draft is open: somebody else can sit down at once, and the draft is there."""
        anna = self.planner()
        self.show(anna, "c0109")
        self.move(anna, (4, 1), (4, 3))
        anna.press("q")
        anna.sees("Leave the seat?", "#box")
        anna.press("y")
        anna.sees("You have left the seat", "#banner")
        self.assertEqual(self.sit("day", 0, "show cost\n", "--name", "anna")[-1][:5], "costs")
        anna.reload()
        self.sit_by_again(anna)
        anna.sees("your draft: 1 edit", "#costs")

    def sit_by_again(self, browser):
        browser.wait("return performance.getEntriesByName('ready').length > 0")
