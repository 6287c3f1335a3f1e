"""Keys and boxes of the page: what is in front has them, and nobody gets stuck."""
import contextlib
import signal

from served import BOX, DONE, SPRING, SPRING_SOL, BrowserTest, cell, skip_without_browser

# a lecture of c0109
FROM = (4, 1)
IN_WEEK = "return !!document.activeElement.closest('#week')"
# one answer to an act that no office gives, and one of an office that does not know the window
ANSWERED = """
const [text, status] = arguments;
const ask = window.fetch;
window.fetch = (path, more) => {
  if (path.endsWith("/about")) return ask(path, more);
  window.fetch = ask;
  const headers = { "Content-Type": "application/json" };
  return Promise.resolve(new Response(text, { status, headers }));
};
"""
MISTAKEN = ('{"question": {"number": 1}}', 200)
UNKNOWN = ('{"fault": "this window is not known here"}', 410)


@skip_without_browser
class Keys(BrowserTest):
    def setUp(self):
        super().setUp()
        self.open("day", SPRING, "2", "--start", SPRING_SOL)
        self.server = self.serve("day")

    def chosen(self):
        """A planner with a lecture at the cursor."""
        anna = self.planner()
        self.show(anna, "c0109")
        anna.click(cell(FROM))
        anna.sees("5 of 5 placed", "#inspector")
        return anna

    @contextlib.contextmanager
    def waiting(self):
        """The office answers nothing meanwhile."""
        self.server.send_signal(signal.SIGSTOP)
        try:
            yield
        finally:
            self.server.send_signal(signal.SIGCONT)

    def test_act_that_fails(self):
        """Acts behind one that has failed are done all the same, and it is said."""
        anna = self.chosen()
        anna.run(ANSWERED, *MISTAKEN)
        anna.press("i")
        anna.sees("Something went wrong with your last action", "#toasts")
        anna.press("Enter")
        anna.sees("is held", "#inspector")
        self.assertEqual(len(anna.complaints()), 1)

    def test_list_in_front(self):
        """What was pressed before a list of rooms came up does nothing behind it."""
        anna = self.chosen()
        with self.waiting():
            anna.press("o", "b")
        anna.wait("return document.activeElement.matches('.menu')")
        anna.press("Escape")
        anna.wait("return !document.querySelector('.menu-box')")
        anna.press("Escape")
        anna.wait("return !document.querySelector('#week.holding')")
        # one that has lost the focus is in nobody's way
        anna.press("o")
        anna.wait("return document.activeElement.matches('.menu')")
        anna.run("document.querySelector('#week [tabindex=\"0\"]').focus()")
        anna.wait("return !document.querySelector('.menu-box')")
        anna.press("a")
        anna.sees("No draft is open", "#said")
        self.is_clean(anna)

    def test_typed_ahead(self):
        """What is typed while acts are under way stays where it was begun: in the search, in a line
        of the desk; and then leads to the week. The help stays in front."""
        anna = self.chosen()
        with self.waiting():
            anna.press("Enter", "/", *"c0097")
        anna.wait(DONE)
        anna.press("Enter")
        anna.sees("c0097", "#week-title")
        self.assertTrue(anna.run(IN_WEEK))
        anna.press("Escape")
        anna.wait("return !document.querySelector('#week.holding')")
        anna.click("#week .card")
        with self.waiting():
            anna.press("x", ":", *"show co")
        anna.sees("missing 1", "#costs")
        anna.press(*"st", "Enter")
        anna.sees("costs", "#said")
        with self.waiting():
            anna.press("u", "?")
        anna.sees("missing 0", "#costs")
        anna.wait(DONE)
        self.assertIn("Keys and signs", anna.text("#box"))
        anna.press("Escape")
        # what is typed behind a name goes to its week, when that is there
        with self.waiting():
            anna.press("/", *"c0109", "Enter", "x")
        anna.sees("missing 1", "#costs")
        anna.sees("c0109", "#missing")
        self.is_clean(anna)

    def test_question_behind_what_is_typed(self):
        """A question that comes while something is typed is asked when that is ended, and no key
        that was meant for something else answers it."""
        anna = self.chosen()
        anna.press("p")
        anna.wait(BOX)
        anna.type("exam")
        anna.press("Enter")
        # behind the key of pinning it may be a word; the same once more is the reason
        anna.sees("pexam is a name or a word", "#box")
        anna.press("Enter")
        anna.sees("exam", "#inspector")
        for begin, text in (("/", "c0097"), (":", "show cost")):
            with self.waiting():
                anna.press("x", begin, *text)
            anna.wait(DONE)
            self.assertNotIn("exam", anna.text("#box"))
            anna.press("Enter")
            anna.sees("exam", "#box")
            anna.wait(DONE)
            self.assertIn("missing 0", " ".join(anna.text("#costs").split()))
            anna.press("Escape")
            anna.wait(f"return !({BOX[7:]})")
        self.assertIn("c0109", anna.text("#week-title"))
        self.is_clean(anna)

    def test_window_is_not_known(self):
        """An act that the office has not done, since it has forgotten the window, is done when the
        page has begun anew."""
        anna = self.chosen()
        anna.run(ANSWERED, *UNKNOWN)
        anna.press("x")
        anna.sees("missing 1", "#costs")
        self.assertEqual(anna.run("return performance.getEntriesByName('ready').length"), 2)
        self.assertEqual(anna.text("#toasts .bad"), "")
        anna.press("u")
        anna.sees("missing 0", "#costs")
        self.is_clean(anna)

    def test_name_is_asked_until_it_is_given(self):
        """Escape does not lead past the question for a name, nor to a page without one."""
        anna = self.browser()
        anna.go(self.links["seat 0"])
        anna.wait(BOX)
        for _ in range(4):
            anna.press("Escape")
        anna.wait(BOX)
        anna.type("anna")
        anna.press("Enter")
        anna.sees("anna (you)", "#people")
        self.is_clean(anna)

    def test_focus_behind_help(self):
        """What is chosen in the help leads to the week; going back, to where it was opened."""
        anna = self.chosen()
        anna.click("#help-button")
        anna.wait(BOX)
        anna.press("Escape")
        anna.wait(f"return !({BOX[7:]})")
        self.assertEqual(anna.run("return document.activeElement.id"), "help-button")
        anna.click("#help-button")
        anna.wait(BOX)
        anna.click("#box [data-id='undo']")
        anna.sees("nothing to undo", "#said")
        self.assertTrue(anna.run(IN_WEEK))
        self.is_clean(anna)

    def test_letters_of_a_box(self):
        """The letter on a button of a box presses it, with no other letter beside it; in a word it
        presses nothing."""
        anna = self.chosen()
        anna.press("x")
        anna.sees("your draft: 1 edit", "#costs")
        anna.press("a")
        anna.sees("Give them up Y", "#box")
        anna.press("x", "q", "Control+y", "y")
        anna.wait(DONE)
        self.assertTrue(anna.run(BOX))
        anna.press("Escape")
        anna.wait(f"return !({BOX[7:]})")
        anna.sees("your draft: 1 edit", "#costs")
        anna.press("a")
        anna.sees("Give them up Y", "#box")
        anna.press("x", "Control+y")
        anna.wait(DONE)
        self.assertTrue(anna.run(BOX))
        anna.press("y")
        anna.sees("no draft open", "#costs")
        self.is_clean(anna)
