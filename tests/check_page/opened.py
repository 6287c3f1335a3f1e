"""The page of checks in a browser: what it shows is what the program prints and says."""
import base64
import json
import os
import random
import subprocess
import sys
import time

from firefox import Firefox, find_firefox

sys.path.insert(0, os.path.join(os.path.dirname(os.path.abspath(__file__)), "../web"))
from browser import Browser, Driver, has_browser  # noqa: E402
from drawn import draw_instance, draw_solution  # noqa: E402
from points import WAYS, break_text  # noqa: E402
from program import EXAMPLES, PROGRAM, check, read_files  # noqa: E402
from rules import Instance  # noqa: E402

PATIENCE = int(os.environ.get("PATIENCE", "30"))
BROKEN = 40
# drops files on the page, in place of those that are there
DROP = """
for (const button of document.querySelectorAll("#files button")) { button.click(); }
const drop = new DataTransfer();
for (const [name, text] of JSON.parse(arguments[0])) {
  drop.items.add(new File([Uint8Array.from(atob(text), (one) => one.charCodeAt(0))], name));
}
document.body.dataset.busy = "soon";
dispatchEvent(new DragEvent("drop", { dataTransfer: drop, cancelable: true }));
"""
REQUEST = """
window.refusedBy = "";
addEventListener("securitypolicyviolation", (event) => { window.refusedBy = event.violatedDirective; });
fetch("http://127.0.0.1:1/").catch(() => {});
"""


class Chromium:
    """Chromium with the calls that Firefox has."""

    def __init__(self):
        self.driver = Driver()
        self.browser = Browser(self.driver, 1100, 900)

    def go(self, url):
        self.browser.go(url)
        self.browser.cdp("Network.enable")
        conditions = {"offline": True, "latency": 0, "downloadThroughput": 0, "uploadThroughput": 0}
        self.browser.cdp("Network.emulateNetworkConditions", **conditions)

    def run(self, script, *words):
        return self.browser.run(script, *words)

    def shot(self):
        return self.browser.command("GET", "screenshot")

    def end(self):
        self.browser.end()
        self.driver.end()


class Page:
    """The page in one browser."""

    def __init__(self, name, browser, path):
        self.name, self.browser = name, browser
        browser.go(f"file://{path}")
        self.wait("return document.body.dataset.ready === 'yes'", "the page is ready")

    def wait(self, script, what):
        until = time.monotonic() + 2 * PATIENCE
        while time.monotonic() < until:
            if self.browser.run(script):
                return
            time.sleep(0.02)
        check(f"{self.name}: {what}", self.browser.run("return document.getElementById('verdict').textContent"), "")

    def drop(self, *files):
        """Drops files, by their names and texts, and waits for what is said of them."""
        packed = [[name, base64.b64encode(text).decode()] for name, text in files]
        self.browser.run(DROP, json.dumps(packed))
        self.wait("return document.body.dataset.busy === ''", "what was dropped is checked")

    def text(self, name):
        return self.browser.run("return document.getElementById(arguments[0]).textContent", name)

    def compare(self, name, instance, solution):
        """What is shown of two files is what the program prints, or says of its fault."""
        files = [("drawn.ctt", instance), ("drawn.sol", solution)]
        for file, text in files:
            with open(file, "wb") as opened:
                opened.write(text)
        words = ["check", "drawn.ctt", "drawn.sol", "--explain", "--point"]
        done = subprocess.run([PROGRAM, *words], capture_output=True, timeout=300)
        self.drop(*files)
        status = self.browser.run("return document.body.dataset.status")
        shown = self.text("said" if done.returncode else "report")
        wanted = (done.stderr if done.returncode else done.stdout).decode()
        check(f"{self.name}: {name}", (status, shown), (str(done.returncode), wanted))

    def broken(self):
        """Files that are refused, drawn anew until there are so many."""
        draw, count = random.Random(40), 0
        while count < BROKEN:
            text, barred = draw_instance(draw)
            solution = draw_solution(draw, Instance(text, barred))
            pair = [text, solution]
            number = draw.randrange(2)
            pair[number] = break_text(draw, pair[number], WAYS)
            self.compare(f"broken files {count}", *pair)
            count += self.browser.run("return document.body.dataset.status") == "1"
        marked = self.browser.run("return document.querySelectorAll('#excerpt mark').length")
        check(f"{self.name}: one word is marked", marked, 1)

    def spring(self):
        """The example, its findings and its weeks."""
        instance, solution = read_files(os.path.join(EXAMPLES, f"spring.{one}") for one in ("ctt", "sol"))
        self.compare("spring", instance, solution)
        took = float(self.browser.run("return document.body.dataset.took"))
        print(f"{self.name}: spring is checked in {took:.1f} ms, by the {self.browser.run('return document.body.dataset.module')} module")
        for part in ("kind", "teachers", "page", "report", "sentences"):
            self.browser.run(f"document.querySelector('input[value={part}]').click()")
            self.wait("return document.body.dataset.busy === ''", f"{part} is shown")
            self.wait(f"return !document.querySelector('[data-part={part}]').hidden", f"{part} is seen")
        check(f"{self.name}: sentences", self.browser.run("return document.querySelectorAll('#sentences li').length") > 100, True)
        check(f"{self.name}: teachers", self.browser.run("return document.querySelectorAll('#teachers details').length") > 10, True)

    def ranking(self):
        """Several solutions: the best first, a file that is refused last, and by a column that is pressed."""
        instance, solution = read_files(os.path.join(EXAMPLES, name) for name in ("small.ctt", "s.sol"))
        lines = solution.split(b"\n")
        self.drop(("small.ctt", instance), ("a.sol", b"x"), ("b.sol", b"\n".join(lines[1:])), ("c.sol", solution))
        names = "return [...document.querySelectorAll('#table tbody th')].map((one) => one.textContent).join(' ')"
        check(f"{self.name}: ranked", self.browser.run(names), "c.sol b.sol a.sol")
        self.browser.run("document.querySelector('#table thead button').click()")
        check(f"{self.name}: sorted by name", self.browser.run(names), "a.sol b.sol c.sol")

    def request(self):
        """A request is refused by the page's own rules."""
        self.browser.run(REQUEST)
        self.wait("return window.refusedBy !== ''", "a request is refused")
        check(f"{self.name}: what refuses a request", self.browser.run("return window.refusedBy"), "connect-src")


def open_in(name, begin, page, pictures=None):
    """Opens the page in a browser, in a folder of its own."""
    browser = begin()
    try:
        opened = Page(name, browser, page)
        opened.spring()
        opened.ranking()
        opened.broken()
        if pictures:
            with open(os.path.join(pictures, f"{name}.png"), "wb") as file:
                file.write(base64.b64decode(browser.shot()))
        opened.request()
    finally:
        browser.end()


def open_page(page, folder, skip):
    os.chdir(folder)
    pictures = os.environ.get("PICTURES")
    if has_browser():
        open_in("Chromium", Chromium, page, pictures)
    else:
        skip("Chromium is not installed, or its driver is not: the page was not opened in it")
    if find_firefox():
        open_in("Firefox", Firefox, page, pictures)
    else:
        skip("Firefox is not installed: the page was not opened in it")
