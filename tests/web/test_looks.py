"""How the page looks: contrast, zoom, colours that are forced, less motion, paper, many periods."""
import re

from contrast import CONTRAST
from served import SPRING, SPRING_SOL, BrowserTest, cell, skip_without_browser

FROM = (4, 1)
BEN = "open\nmove c0109 4 1 r09 4 2\ncommit\n"
# the sizes of pages: a usual one, a tablet both ways, a larger one, and at 200 percent
SIZES = ((1280, 800, 1), (1024, 768, 1), (768, 1024, 1), (820, 1180, 1), (1280, 800, 2))
# what is wider than the window, other than what scrolls by itself
WIDE = """
return [...document.querySelectorAll('body *')].filter((one) => {
  const box = one.getBoundingClientRect();
  return box.width > 0 && box.right > innerWidth + 1 && !one.closest('.scroll, .skip, .held-card');
}).map((one) => one.className || one.tagName);
"""
# texts of buttons and prices that are cut
CUT = """
return [...document.querySelectorAll('button, .price, .pill, .value')]
  .filter((one) => one.checkVisibility() && one.scrollWidth > one.clientWidth + 2
    && getComputedStyle(one).display !== 'inline')
  .map((one) => one.innerText);
"""

# where slots and buttons are
PLACES = """
const places = ['.cell', '#draft button', '#missing .card', '#inspector .buttons > *'];
return [...document.querySelectorAll(places.join())].map((one) => {
  const box = one.getBoundingClientRect();
  const name = one.dataset.at || one.dataset.id;
  return [name, ...[box.left, box.top, box.width, box.height].map(Math.round)].join();
}).join(';');
"""
WIDTH = "return document.querySelector(arguments[0]).getBoundingClientRect().width"


@skip_without_browser
class Looks(BrowserTest):
    def setUp(self):
        super().setUp()
        self.open("day", SPRING, "2", "--start", SPRING_SOL)
        self.serve("day")

    def each_state(self, browser):
        """The page in its states: free, held, with a draft, with a box, with help."""
        self.show(browser, "c0109")
        browser.click(cell(FROM))
        browser.sees("5 of 5 placed", "#inspector")
        yield "free"
        browser.press("Enter")
        browser.sees("is held", "#inspector")
        yield "held"
        browser.press("b", "Enter")
        browser.sees("your draft: 1 edit", "#costs")
        yield "draft"
        browser.press("x")
        browser.sees("missing 1", "#costs")
        yield "missing"
        browser.press("c")
        browser.sees("Commit 2 edits?", "#box")
        yield "box"
        browser.press("Escape")
        browser.press("/", "c")
        browser.wait("return !document.getElementById('search-list').hidden")
        yield "search"
        browser.press("Escape")
        browser.press("?")
        browser.sees("Keys and signs", "#box")
        yield "help"
        browser.press("Escape")
        browser.press("u", "u")
        browser.sees("your draft: 0 edits", "#costs")

    def has_contrast(self, browser, state):
        """Each text is told from its ground, by day and by night."""
        for scheme in ("light", "dark"):
            features = [{"name": "prefers-color-scheme", "value": scheme}]
            browser.cdp("Emulation.setEmulatedMedia", features=features)
            self.assertEqual(browser.run(CONTRAST), [], (scheme, state))
        browser.cdp("Emulation.setEmulatedMedia", features=[])

    def test_contrast(self):
        anna = self.planner()
        for state in self.each_state(anna):
            self.has_contrast(anna, state)

    def test_contrast_of_others(self):
        """What others did, rooms by price, a stale draft, an office that closes; and who reads."""
        anna, reader = self.planner(), self.browser()
        reader.go(self.links["reader"])
        reader.wait("return performance.getEntriesByName('ready').length > 0")
        self.show(anna, "c0109")
        anna.click(cell((3, 2)))
        anna.press("o")
        anna.sees("rooms by price", ".menu-box")
        self.has_contrast(anna, "rooms")
        anna.press("Escape", "Escape")
        anna.wait("return !document.querySelector('#week.holding')")
        self.move(anna, FROM, (4, 3))
        self.sit("day", 1, BEN, "--name", "ben")
        anna.sees("ben committed draft 1", "#said")
        anna.sees("ben", cell((4, 2)))
        self.has_contrast(anna, "news")
        self.show(reader, "c0109")
        self.has_contrast(reader, "reader")
        anna.press("f")
        anna.sees("Your draft is stale", "#box")
        self.has_contrast(anna, "stale")
        anna.press("Escape")
        anna.sees("Nothing is lost", "#draft")
        self.has_contrast(anna, "ended")
        self.start("close", self.path("day"), "--wait", "20")
        anna.sees("The office closes in", "#banner")
        self.has_contrast(anna, "closing")

    def test_sizes(self):
        """Nothing is cut or lies outside, at each size."""
        anna = self.planner()
        for width, height, zoom in SIZES:
            anna.set_size(width, height, zoom=zoom)
            for state in self.each_state(anna):
                self.assertEqual(anna.run(WIDE), [], (width, zoom, state))
                self.assertEqual(anna.run(CUT), [], (width, zoom, state))
        anna.set_size(1280, 800)

    def test_nothing_jumps(self):
        """Cells stay where they are when a lecture is picked up, put down, or said something of."""
        anna = self.planner()
        boxes = (
            "return [...document.querySelectorAll('.cell')].map((one) => {"
            "const box = one.getBoundingClientRect();"
            "return [box.left, box.top, box.width, box.height].map(Math.round).join(); }).join(';')"
        )
        self.show(anna, "c0109")
        anna.click(cell(FROM))
        before = anna.run(boxes)
        anna.press("Enter")
        anna.sees("is held", "#inspector")
        self.assertEqual(anna.run(boxes), before)
        anna.press("b", "Enter")
        anna.sees("your draft: 1 edit", "#costs")
        self.assertEqual(anna.run(boxes), before)

    def test_nothing_jumps_by_others(self):
        """Neither slots nor buttons move when others commit, with a draft or without, wide, upright
        and at 200 percent."""
        anna = self.planner()
        self.show(anna, "c0109")
        anna.click(cell((3, 2)))
        anna.press("x")
        anna.sees("missing 1", "#costs")
        before = anna.run(PLACES)
        self.sit("day", 1, BEN, "--name", "ben")
        anna.sees("stale by now", "#costs")
        anna.sees("ben", "#news")
        self.assertEqual(anna.run(PLACES), before)
        anna.press("a")
        anna.sees("Give them up", "#box")
        anna.press("y")
        anna.sees("no draft open", "#costs")
        for number, (width, height, zoom) in enumerate((SIZES[0], SIZES[2], SIZES[4])):
            anna.set_size(width, height, zoom=zoom)
            anna.sees("5 of 5 placed", "#inspector")
            before = anna.run(PLACES)
            change = f"open\nreroom c0109 r{7 if number % 2 else 8:02} 3 2\ncommit\n"
            self.sit("day", 1, change, "--name", "ben")
            anna.sees(f"draft {number + 2} ·", "#news")
            self.assertEqual(anna.run(PLACES), before, (width, zoom))
        anna.set_size(1280, 800)

    def test_tablet(self):
        """Held upright it shows the pencil of a changed lecture, and who else sits."""
        anna = self.planner(width=768, height=1024, touch=True)
        self.planner("seat 1", "ben")
        anna.sees("ben", "#people")
        self.assertGreater(anna.run(WIDTH, ".person:not(.me) bdi"), 10)
        self.show(anna, "c0109")
        self.move(anna, FROM, (4, 3))
        seen = anna.run(
            "const box = (one) => one.getBoundingClientRect();"
            "const pencil = document.querySelector(arguments[0] + ' .pencil');"
            "const [inner, outer] = [box(pencil), box(pencil.closest('.card'))];"
            "const at = document.elementFromPoint("
            "  inner.left + inner.width / 2, inner.top + inner.height / 2);"
            "return [pencil === at, inner.width > 5, inner.right <= outer.right]",
            cell((4, 3)),
        )
        self.assertEqual(seen, [True, True, True])

    def test_less_motion(self):
        """Who wants less motion has none, also where others have changed something."""
        anna = self.planner(features={"prefers-reduced-motion": "reduce"})
        self.show(anna, "c0109")
        self.sit("day", 1, BEN, "--name", "ben")
        anna.wait("return !!document.querySelector('.cell.fresh .card')")
        self.assertEqual(anna.run("return document.getAnimations().length"), 0)
        self.is_clean(anna)

    def test_forced_colours(self):
        """With colours that are forced a price has a sign, and what is chosen a frame."""
        anna = self.planner(features={"forced-colors": "active"})
        self.show(anna, "c0109")
        self.pick_up(anna, (3, 2))
        sign = anna.run(
            "return getComputedStyle(document.querySelector('.price.good, .price.dear'),"
            " '::before').content"
        )
        self.assertRegex(sign, "[↓↑]")
        self.is_clean(anna)

    def test_paper(self):
        """Printing prints the week that is seen, on one page, and nothing else."""
        anna = self.planner()
        self.show(anna, "c0109")
        anna.cdp("Emulation.setEmulatedMedia", media="print", features=[])
        hidden = anna.run(
            "return ['.top', '.costs', '.side', '.stage-foot'].filter((one) =>"
            " document.querySelector(one).checkVisibility())"
        )
        self.assertEqual(hidden, [])
        self.assertTrue(anna.run("return document.querySelector('#week').checkVisibility()"))
        import base64

        pdf = base64.b64decode(anna.cdp("Page.printToPDF", preferCSSPageSize=True)["data"])
        self.assertEqual(len(re.findall(rb"/Type\s*/Page\b", pdf)), 1)
        anna.cdp("Emulation.setEmulatedMedia", media="", features=[])
