"""What is found by hand and by eye: a menu at each slot, a bar, links, names, and a search without
accents."""
import os
import time

from served import BrowserTest, SPRING, SPRING_SOL, Shared, WebTest, cell, skip_without_browser
from served import skip_without_tornado

from office.words.folding import searched

FROM, BEST = (4, 1), (4, 3)
HELD = "return !!document.querySelector('#week.holding')"
NAMES = [
    "kind,code,name,short name",
    "course,c0109,Linear Algebra,",
    "course,c0014,Optics,",
    "course,c0001,Optics,",
    "teacher,t067,Zoë Müller,",
    "room,r04,Ångström Hall,",
]
MENU = "return document.querySelector('.menu')?.innerText.includes(arguments[0])"


@skip_without_browser
class Found(BrowserTest):
    def setUp(self):
        super().setUp()
        os.mkdir(self.path("labels"))
        self.write("labels/labels.csv", "\n".join(NAMES) + "\n")
        words = ["--start", SPRING_SOL, "--labels", self.path("labels")]
        self.open("day", SPRING, "3", *words)
        self.serve("day")

    def menu(self, browser, slot):
        """Asks for the menu at a slot, as the right button does."""
        told = "document.querySelector(arguments[0]).dispatchEvent("
        told += "new MouseEvent('contextmenu', {bubbles: true, cancelable: true}))"
        browser.run(told, cell(slot))

    def test_menu_and_links(self):
        """By the right button and by a key: what can be done. The parts of the cost list what costs
        points, what is missing leads there, and an accepted draft is shown."""
        anna = self.planner()
        self.show(anna, "Linear Algebra")
        self.menu(anna, FROM)
        for told in ("Move", "Swap", "Take out", "Pin", "History", "Block"):
            anna.wait(MENU, told)
        anna.press("Enter")
        anna.wait(HELD)
        anna.press("Escape")
        anna.wait(f"return !({HELD[7:]})")
        anna.click(cell(FROM))
        anna.run(
            "document.activeElement.dispatchEvent(new KeyboardEvent('keydown', "
            "{key: 'ContextMenu', bubbles: true, cancelable: true}))"
        )
        anna.wait(MENU, "Take out")
        anna.press("Escape")
        anna.click("#costs [data-id='capacity']")
        anna.sees("capacity: ", "#box")
        anna.sees("without a seat", "#box")
        anna.press("Escape")
        anna.click("#bar [data-id='findings']")
        anna.sees("What to mend", "#box")
        anna.press("Escape")
        self.move(anna, FROM, BEST)
        self.committed(anna, "it is nearer")
        anna.click("#news .when")
        anna.sees("Draft 1, anna", "#box")
        anna.press("Escape")
        self.is_clean(anna)

    def test_names(self):
        """A name in place of the code wherever it is known, for planners and for readers; a code
        where two have the same name; a search without accents."""
        anna = self.planner()
        self.look_for(anna, "zoe", "Zoë Müller")
        anna.sees("Linear Algebra", "#week")
        self.assertNotIn("t067", anna.text("#week"))
        self.look_for(anna, "angstrom", "Ångström Hall")
        self.look_for(anna, "mueller", "Zoë Müller")
        self.look_for(anna, "c0014", "Optics (c0014)")
        reader = self.browser()
        reader.go(self.links["reader"])
        reader.wait("return performance.getEntriesByName('ready').length > 0")
        self.look_for(reader, "c0109", "Linear Algebra")
        title = "return document.querySelector('.card').title"
        self.assertIn("Linear Algebra", reader.run(title))
        self.assertIn("Zoë Müller", reader.run(title))

    @staticmethod
    def look_for(browser, typed, title):
        browser.run("document.querySelector('#week [tabindex=\"0\"]').focus()")
        browser.press("/")
        browser.type(typed)
        browser.press("Enter")
        browser.sees(title, "#week-title")

    def test_layout(self):
        """In low windows what is missing is seen beside a draft, and no text is over another."""
        anna = self.planner(width=1024, height=700)
        self.show(anna, "Linear Algebra")
        anna.click(cell(FROM))
        anna.press("x")
        anna.sees("1 missing", "#missing")
        cut = "const box = document.querySelector('#missing .card').getBoundingClientRect();"
        self.assertTrue(anna.run(f"{cut} return box.right <= innerWidth && box.width > 60"))
        bar = "return document.getElementById('costs').getBoundingClientRect().height"
        self.assertLess(anna.run(bar), 50)
        anna.click(cell((4, 2)))
        anna.press("m", "Enter")
        anna.wait(HELD)
        over = """
        return [...document.querySelectorAll('.cell:has(.here):has(.why)')].filter((one) =>
          one.querySelector('.here').getBoundingClientRect().bottom >
          one.querySelector('.why').getBoundingClientRect().top + 2).length"""
        self.assertEqual(anna.run(over), 0)


@skip_without_tornado
class Told(Shared):
    instance = SPRING
    planners = "2"
    words = ("--start", SPRING_SOL)

    def test_stands_best(self):
        """A lecture that stands best has no cheapest slot: that is said."""
        self.ask("hello", {"name": "anna"})
        found = self.ask("show", {"view": ["course", "c0030"]})[1]["picture"]["week"]["cells"]
        told = []
        for one in found:
            for lecture in one["lectures"]:
                seen = {"course": "c0030", "room": lecture["room"], "at": one["at"]}
                held = self.ask("pick_up", {"lecture": seen, "kind": "move"})[1]["picture"]["held"]
                prices = [each["offers"][0][0] for each in held["slots"] if each["offers"]]
                if held["best"] is None:
                    self.assertIn("no slot is cheaper", held["hint"])
                    self.assertGreaterEqual(min(prices), 0)
                    told.append(held)
                self.ask("lay_down")
        self.assertNotEqual(told, [])

    def test_rooms_by_name(self):
        self.ask("hello", {"name": "anna"})
        seen = {"course": "c0109", "room": "r01", "at": FROM}
        self.ask("pick_up", {"lecture": seen, "kind": "move"})
        found = self.ask("offers", {"at": BEST})[1]
        self.assertEqual(len(found["told"]), len(found["offers"]))
        self.assertTrue(all(" seat" in told for told in found["told"]), found)
        self.ask("lay_down")


@skip_without_tornado
class Blocking(WebTest):
    def test_two_seats_are_not_waited_for(self):
        """The rules change at once, also where several seats of browsers are open."""
        self.open("day", SPRING, "4", "--start", SPRING_SOL)
        self.serve("day")
        for seat in range(4):
            self.ask("hello", {"name": f"p{seat}"}, f"seat {seat}")
        begun = time.monotonic()
        told = self.office("block", self.path("day"), "room", "r04", "5", "--why", "it is wet")
        self.assertEqual(told[0], 0, told)
        self.assertLess(time.monotonic() - begun, 4.0)
        self.assertIn("muller", searched("Müller"))
