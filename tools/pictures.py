#!/usr/bin/env python3
"""Makes the pictures of docs/GUIDE.md: pages as Chromium shows them, in a wide window and on a phone, by day and by night.

PROGRAM names the program that writes the pages, and BROWSER the browser, which is told what to do by two pipes.
"""
import base64
import json
import os
import subprocess
import tempfile
import time

HERE = os.path.dirname(os.path.dirname(os.path.abspath(__file__)))
PROGRAM = os.environ.get("PROGRAM", os.path.join(HERE, "crates/ctt_tool/out/ctt_tool"))
BROWSER = os.environ.get("BROWSER", "chromium")
# the name of each picture, its page, the id that is gone to (or none), its size, and whether it is night
PICTURES = [
    ("page-wide-light", "hand", "", 1280, 1000, False),
    ("page-narrow-dark", "hand", "t0-2", 400, 800, True),
    ("page-names-wide-dark", "markup", "c0", 1280, 800, True),
    ("page-names-narrow-light", "markup", "c0", 400, 800, False),
]


class Browser:
    """A browser with one window."""

    def __init__(self, folder):
        lines, self.lines = os.pipe()
        self.answers, answers = os.pipe()
        words = ["--headless=new", "--no-sandbox", "--hide-scrollbars", "--remote-debugging-pipe", f"--user-data-dir={folder}"]

        def give_pipes():
            # the browser reads at 3 and answers at 4
            os.dup2(os.dup(lines), 13)
            os.dup2(answers, 4)
            os.dup2(13, 3)

        self.process = subprocess.Popen([BROWSER, *words], preexec_fn=give_pipes, close_fds=False, stderr=subprocess.DEVNULL)
        os.close(lines)
        os.close(answers)
        self.count, self.rest, self.session = 0, b"", {}
        window = next(each for each in self.ask("Target.getTargets")["targetInfos"] if each["type"] == "page")
        attached = self.ask("Target.attachToTarget", targetId=window["targetId"], flatten=True)
        self.session = {"sessionId": attached["sessionId"]}

    def ask(self, method, **parameters):
        """Asks something, and waits for the answer."""
        self.count += 1
        text = json.dumps({"id": self.count, "method": method, "params": parameters, **self.session})
        os.write(self.lines, text.encode() + b"\0")
        while True:
            while b"\0" not in self.rest:
                self.rest += os.read(self.answers, 65536) or exit("the browser has ended")
            answer, self.rest = self.rest.split(b"\0", 1)
            answer = json.loads(answer)
            if answer.get("id") == self.count:
                return answer["result"]

    def picture(self, page, width, height, night):
        """A picture of a page, as PNG."""
        self.ask("Emulation.setDeviceMetricsOverride", width=width, height=height, deviceScaleFactor=1, mobile=width < 600)
        self.ask("Emulation.setEmulatedMedia", features=[{"name": "prefers-color-scheme", "value": "dark" if night else "light"}])
        self.ask("Page.navigate", url="about:blank")
        self.ask("Page.navigate", url=page)
        while self.ask("Runtime.evaluate", expression="document.readyState")["result"]["value"] != "complete":
            time.sleep(0.1)
        time.sleep(1)
        return base64.b64decode(self.ask("Page.captureScreenshot", format="png")["data"])


def write_page(file, instance, solution):
    with open(file, "wb") as page:
        folder, name = os.path.split(solution)
        subprocess.run([PROGRAM, "page", instance, name], stdout=page, check=True, cwd=folder)


def main():
    with tempfile.TemporaryDirectory() as folder:
        # the list of the guide that somebody has changed by hand
        with open(os.path.join(HERE, "examples/spring.sol"), encoding="utf-8") as solution:
            hand = solution.read().replace("c0001 r14 1 2\n", "c0001 r14 0 2\n")
        with open(f"{folder}/hand.sol", "w", encoding="utf-8") as solution:
            solution.write(hand)
        write_page(f"{folder}/hand.html", os.path.join(HERE, "examples/spring.ctt"), f"{folder}/hand.sol")
        write_page(f"{folder}/markup.html", *(os.path.join(HERE, f"tests/names/markup.{ending}") for ending in ("ctt", "sol")))
        browser = Browser(f"{folder}/browser")
        for name, page, place, width, height, night in PICTURES:
            with open(os.path.join(HERE, f"docs/{name}.png"), "wb") as picture:
                picture.write(browser.picture(f"file://{folder}/{page}.html#{place}", width, height, night))
        browser.ask("Browser.close")
        browser.process.wait()


if __name__ == "__main__":
    main()
