"""A day that is served to browsers, for the tests."""
import atexit
import contextlib
import http.client
import json
import os
import re
import socket
import sys
import unittest

HERE = os.path.dirname(os.path.dirname(os.path.dirname(os.path.abspath(__file__))))
# behind, since there are tests of the same names
sys.path.append(os.path.join(HERE, "tests", "client"))
sys.path.insert(0, os.path.join(HERE, "tools"))

from browser import Browser, Driver, DriverFault, has_browser  # noqa: E402
from support import OFFICE, SMALL, SPRING, SPRING_SOL, OfficeTest, wait_until  # noqa: E402
from typed_messages import EVENT, answer_of, misfits  # noqa: E402

from office.refused import Refused  # noqa: E402
from office.web.launch import find_python  # noqa: E402


def has_tornado():
    try:
        return bool(find_python())
    except Refused:
        return False


NO_TORNADO = "no Python has tornado, so no seat was served"
NO_BROWSER = "chromium or chromedriver is not installed, so no page was opened"
READY = "return performance.getEntriesByName('ready').length > 0"
# what a page keeps of what the browser has refused by the policy, and of errors
WATCH = """
window.blocked = [];
addEventListener('securitypolicyviolation', (one) => blocked.push(one.violatedDirective));
addEventListener('error', (one) => blocked.push(String(one.message)));
addEventListener('unhandledrejection', (one) => blocked.push(String(one.reason)));
"""


class WebTest(OfficeTest):
    """A test with days that are served. Each message of a seat has its type."""

    met = None

    def serve(self, day, *words):
        """Serves the seats of a day, and answers their links by what they are of."""
        words = words or ("--port", "0")
        process = self.start("web", self.path(day), *words)
        links = {}
        while "reader" not in links:
            line = process.stdout.readline()
            if not line:
                self.fail(f"no links: {process.stderr.read()}")
            found = re.match(r"  (seat \d+|reader) +(\S+)$", line)
            if found:
                links[found.group(1)] = found.group(2)
        self.links = links
        return process

    def key(self, name="seat 0"):
        return self.links[name].split("#")[1]

    def address(self):
        return re.match(r"http://([^/]+)/", self.links["seat 0"]).group(1)

    def request(self, method, path, body=None, headers=None, host=None):
        """A request with these headers, and what it is answered: status, headers, body."""
        connection = http.client.HTTPConnection(self.address(), timeout=60)
        with contextlib.closing(connection):
            connection.putrequest(method, path, skip_host=True, skip_accept_encoding=True)
            connection.putheader("Host", self.address() if host is None else host)
            for name, value in headers or []:
                connection.putheader(name, value)
            text = body if isinstance(body, bytes) or body is None else json.dumps(body).encode()
            if text is not None and not any(one == "Content-Length" for one, _ in headers or []):
                connection.putheader("Content-Length", str(len(text)))
            connection.endheaders(text)
            answer = connection.getresponse()
            return answer.status, dict(answer.getheaders()), answer.read()

    def asking(self, key, *more):
        """The headers of a request of the page."""
        found = [("X-Seat-Key", key), ("X-Window", "w1"), ("Content-Type", "application/json")]
        return [one for one in found if one[0] not in dict(more)] + [
            one for one in more if one[1] is not None
        ]

    def ask(self, verb, told=None, name="seat 0", *more):
        """What a seat answers to a request of the page: status, and the data."""
        status, _, text = self.request(
            "POST", f"/api/{verb}", told or {}, self.asking(self.key(name), *more)
        )
        found = json.loads(text)
        self.fits(found, answer_of(verb, name, status))
        return status, found

    def fits(self, message, kind):
        """What was sent has its type; which it has is kept, if it is to be."""
        self.assertEqual(misfits(message, kind, met=self.met), [], message)

    def next_event(self, answer, name):
        """The next news of a kind."""
        while True:
            line = answer.readline()
            if not line:
                self.fail(f"no {name} has come")
            if line.strip():
                event = json.loads(line)
                self.fits(event, EVENT)
                if name in event:
                    return event

    def raw(self, text, seconds=15):
        """What is answered to these bytes, until the connection is closed."""
        host, port = self.address().split(":")
        with socket.create_connection((host, int(port)), timeout=seconds) as end:
            end.sendall(text)
            found = b""
            with contextlib.suppress(socket.timeout, ConnectionResetError):
                while True:
                    more = end.recv(65536)
                    if not more:
                        return found
                    found += more
            return found


class Shared(WebTest):
    """Tests at one day that is opened and served once."""

    instance = SMALL
    planners = "4"
    words: "tuple" = ()

    @classmethod
    def setUpClass(cls):
        super().setUpClass()
        cls.host = WebTest("run")
        cls.host.setUp()
        cls.addClassCleanup(cls.host.doCleanups)
        cls.host.open("day", cls.instance, cls.planners, *cls.words)
        cls.host.server = cls.host.serve("day")

    def setUp(self):
        super().setUp()
        # the folder of the host in place of one of its own
        self.room, self.links = self.host.room, dict(self.host.links)
        self.server = self.host.server


class Pool:
    """Browsers that tests use one after another: each day has an address of its own."""

    def __init__(self):
        self.driver = None
        self.free = {}

    def take(self, settings):
        if self.driver is None:
            self.driver = Driver()
        kind = json.dumps(settings, sort_keys=True)
        if self.free.get(kind):
            return kind, self.free[kind].pop()
        made = Browser(self.driver, **settings)
        made.cdp("Page.addScriptToEvaluateOnNewDocument", source=WATCH)
        return kind, made

    def give_back(self, kind, browser):
        """What a test has left open is closed."""
        try:
            handles = browser.command("GET", "window/handles")
            for handle in handles[1:]:
                browser.switch(handle)
                browser.close_tab()
            browser.switch(handles[0])
            browser.release()
            browser.command("POST", "url", {"url": "about:blank"})
            browser.complaints()
        except DriverFault:
            browser.end()
            return
        self.free.setdefault(kind, []).append(browser)

    def end(self):
        """Ends all; who needs a browser then begins anew, also if this is broken off."""
        free, self.free = self.free, {}
        driver, self.driver = self.driver, None
        for browser in [one for kind in free.values() for one in kind]:
            browser.end()
        if driver is not None:
            driver.end()


POOL = Pool()
atexit.register(POOL.end)


class BrowserTest(WebTest):
    """A test in real browsers. Behind one that has failed all begin anew."""

    def setUp(self):
        super().setUp()
        self.addCleanup(self.begin_anew)

    def begin_anew(self):
        """Ends all browsers behind a test that has failed."""
        if not self._outcome.success:
            POOL.end()

    def browser(self, **settings):
        kind, browser = POOL.take(settings)
        self.addCleanup(POOL.give_back, kind, browser)
        return browser

    def sit_by(self, browser, name="seat 0", who="anna"):
        """Sits down by a browser."""
        browser.go(self.links[name])
        browser.wait(f"return document.getElementById('box').open || ({READY[7:]})")
        if browser.run("return !!document.getElementById('name')"):
            browser.type(who)
            browser.press("Enter")
        browser.wait(READY)
        return browser

    def planner(self, name="seat 0", who="anna", **settings):
        """A browser at which somebody sits."""
        return self.sit_by(self.browser(**settings), name, who)

    def is_clean(self, browser):
        """Nothing was blocked, and no error is in the console."""
        self.assertEqual(browser.run("return window.blocked"), [])
        found = [one for one in browser.complaints() if "Failed to load resource" not in one]
        self.assertEqual(found, [])

    def keep_banners(self, browser):
        """From now on the page keeps what its banner has said."""
        browser.run(
            "window.banners = [];"
            "const watch = (all) => all.forEach((one) =>"
            "  one.addedNodes.forEach((node) => banners.push(node.data)));"
            "const told = { childList: true };"
            "new MutationObserver(watch).observe(document.getElementById('banner'), told)"
        )

    def has_focus(self, browser):
        """The focus is somewhere, so that a keyboard has its effect."""
        self.assertNotIn(browser.run("return document.activeElement?.tagName"), (None, "BODY"))

    def show(self, browser, name):
        """Goes to a week by typing."""
        browser.run("document.querySelector('#week [tabindex=\"0\"]').focus()")
        browser.press("/")
        browser.type(name)
        browser.press("Enter")
        browser.wait(
            "return document.querySelector('#week-title bdi').textContent.includes(arguments[0])",
            name,
        )

    def pick_up(self, browser, slot, key="Enter"):
        """Picks up the lecture at a slot."""
        browser.click(cell(slot))
        browser.press(key)
        browser.wait("return !!document.querySelector('#week.holding')")

    def put_down(self, browser, slot):
        browser.click(cell(slot))
        browser.wait("return !document.querySelector('#week.holding')")

    def move(self, browser, start, end):
        """Moves a lecture, and waits until it is in the draft."""
        before = browser.run(EDITS)
        self.pick_up(browser, start)
        self.put_down(browser, end)
        browser.wait(f"return ({EDITS[7:]}) !== arguments[0]", before)

    def commit(self, browser, why=""):
        """Commits by the box."""
        browser.run("document.querySelector('#week [tabindex=\"0\"]').focus()")
        browser.press("c")
        browser.wait(BOX)
        browser.type(why)
        browser.press("Enter")

    def committed(self, browser, why=""):
        self.commit(browser, why)
        browser.sees("Committed as draft", "#said")


# whether all is done that was pressed, how many edits the draft has, whether a box is in front
DONE = "return document.body.dataset.acts === '0'"
EDITS = "return document.querySelectorAll('#draft .edits li').length"
BOX = "return document.getElementById('box').open"


def cell(slot):
    return f"[data-at='{slot[0]},{slot[1]}']"


def skip_without_browser(test):
    lacking = NO_TORNADO if not has_tornado() else NO_BROWSER
    return unittest.skipUnless(has_tornado() and has_browser(), lacking)(test)


def skip_without_tornado(test):
    return unittest.skipUnless(has_tornado(), NO_TORNADO)(test)


__all__ = [
    "BOX",
    "BrowserTest",
    "SPRING",
    "SPRING_SOL",
    "DONE",
    "EDITS",
    "HERE",
    "OFFICE",
    "READY",
    "SMALL",
    "Shared",
    "WebTest",
    "cell",
    "skip_without_browser",
    "skip_without_tornado",
    "wait_until",
]
