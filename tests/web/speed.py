#!/usr/bin/env python3
"""Not a test: how long a browser waits for prices and for the first screen, and how long sixteen
seats at once wait.

    tests/web/speed.py INSTANCE SOLUTION      PROGRAM names another program

Milliseconds by the clock, and of processor: of the server and the desk, and of the page's thread.
On a machine that does other work, too, the least and the processor's are what can be compared.
"""
import json
import os
import random
import sys
import threading
import time
import unittest

sys.dont_write_bytecode = True
HERE = os.path.dirname(os.path.abspath(__file__))
sys.path[:0] = [HERE, os.path.join(os.path.dirname(HERE), "client")]

from served import BrowserTest, WebTest, cell, has_browser  # noqa: E402

SEATS, ROUNDS, PICKED = 16, 12, 40
TICKS = os.sysconf("SC_CLK_TCK")
# from a key or a pointer that goes down to the prices that are painted: a frame is asked for when
# the week has them, and what is behind that frame comes when it is painted
PAINTED = """
window.paints = [];
let begun = 0;
for (const kind of ['keydown', 'pointerdown']) {
  addEventListener(kind, (event) => { begun = event.timeStamp; }, true);
}
const week = document.getElementById('week');
new MutationObserver(() => {
  if (!begun || !week.classList.contains('holding')) return;
  const from = begun;
  begun = 0;
  requestAnimationFrame(() => {
    const behind = new MessageChannel();
    behind.port1.onmessage = () => paints.push(performance.now() - from);
    behind.port2.postMessage(0);
  });
}).observe(week, { attributes: true, attributeFilter: ['class'] });
"""


def told(name, found):
    found = sorted(found)
    print(
        f"{name:36}{len(found):5}{found[0]:9.1f}{found[len(found) // 2]:9.1f}"
        f"{found[len(found) * 95 // 100]:9.1f}{found[-1]:9.1f}",
        flush=True,
    )


def placed(path):
    """The lectures of a solution, as a browser names what it has seen."""
    with open(path) as file:
        words = [line.split() for line in file if line.strip()]
    return [{"course": one[0], "room": one[1], "at": [int(one[2]), int(one[3])]} for one in words]


def processor(*numbers):
    """Milliseconds of processor that processes have had so far."""
    ticks = 0
    for number in numbers:
        with open(f"/proc/{number}/stat") as file:
            words = file.read().rsplit(")", 1)[1].split()
        ticks += int(words[11]) + int(words[12])
    return 1000 * ticks / TICKS


class Speed(BrowserTest):
    def runTest(self):
        # one more, at which the browser sits
        self.open("day", WORDS[0], str(SEATS + 1), "--start", WORDS[1])
        self.served = [self.serve("day").pid, self.desk_of("day")]
        print(f"load {', '.join(f'{one:.0f}' for one in os.getloadavg())}")
        print(f"{'':36}count    least   middle   95/100  longest")
        self.requests()
        self.at_once()
        if has_browser():
            self.pages()

    def requests(self):
        """One seat alone, without a browser."""
        draw, sizes = random.Random(1), {}
        lectures = placed(WORDS[1])
        self.ask("hello", {"name": "anna"}, "seat 0", ("X-Window", "w0"))
        for kind in ("move", "swap"):
            times, before = [], processor(*self.served)
            drawn = draw.sample(lectures, min(PICKED, len(lectures)))
            for lecture in drawn:
                begun = time.perf_counter()
                status, found = self.ask(
                    "pick_up", {"lecture": lecture, "kind": kind}, "seat 0", ("X-Window", "w0")
                )
                times.append((time.perf_counter() - begun) * 1000)
                assert status == 200 and found["picture"]["held"], found
                sizes[kind] = max(sizes.get(kind, 0), len(json.dumps(found)))
                self.ask("lay_down", {}, "seat 0", ("X-Window", "w0"))
            told(f"pick up, {kind}", times)
            told("  processor, with the laying down", [self.each(before, drawn)])
        print(f"the longest answers have {sizes} bytes, before they are packed")

    def each(self, before, drawn):
        return (processor(*self.served) - before) / len(drawn)

    def at_once(self):
        """Sixteen seats, each of which picks up a lecture each half second."""
        lectures, times = placed(WORDS[1]), []

        def work(seat):
            draw, name = random.Random(seat), f"seat {seat}"
            self.ask("hello", {"name": f"planner {seat}"}, name, ("X-Window", f"v{seat}"))
            for _ in range(ROUNDS):
                lecture = draw.choice(lectures)
                begun = time.perf_counter()
                asked = {"lecture": lecture, "kind": draw.choice(["move", "swap"])}
                self.ask("pick_up", asked, name, ("X-Window", f"v{seat}"))
                times.append((time.perf_counter() - begun) * 1000)
                time.sleep(0.5)

        threads = [threading.Thread(target=work, args=(seat,)) for seat in range(SEATS)]
        for thread in threads:
            thread.start()
        for thread in threads:
            thread.join()
        told("pick up, sixteen seats at once", times)

    def thread_time(self, browser):
        """Milliseconds of processor that the page's thread has had."""
        found = browser.cdp("Performance.getMetrics")["metrics"]
        return next(1000 * one["value"] for one in found if one["name"] == "ThreadTime")

    def pages(self):
        """In a browser: the first screen, and from the key to the prices that are painted."""
        anna, begins = self.browser(), []
        anna.cdp("Performance.enable", timeDomain="threadTicks")
        for _ in range(5):
            self.sit_by(anna, f"seat {SEATS}")
            begins.append(anna.run("return performance.getEntriesByName('ready')[0].startTime"))
        told("first screen", begins)
        anna.run(PAINTED)
        lectures = random.Random(2).sample(placed(WORDS[1]), 24)
        before, thread = processor(*self.served), self.thread_time(anna)
        for lecture in lectures:
            self.show(anna, lecture["course"])
            anna.click(cell(lecture["at"]))
            anna.press("Enter")
            anna.wait("return !!document.querySelector('#week.holding')")
            anna.press("Escape")
            anna.wait("return !document.querySelector('#week.holding')")
        told("key to prices that are painted", anna.run("return paints"))
        told("  processor, server and desk, all keys", [self.each(before, lectures)])
        spent = (self.thread_time(anna) - thread) / len(lectures)
        told("  processor, the page, all keys", [spent])
        anna.run("paints.length = 0")
        for lecture in lectures[:12]:
            self.show(anna, lecture["course"])
            at = anna.middle(f"{cell(lecture['at'])} .card")
            moved = ("move", (at[0] + 9, at[1] + 9))
            anna.pointer("mouse", [("move", at), ("down",), moved])
            anna.wait("return !!document.querySelector('#week.holding')")
            anna.press("Escape")
            anna.pointer("mouse", [("up",)])
            anna.wait("return !document.querySelector('#week.holding')")
        told("drag to prices that are painted", anna.run("return paints"))


if __name__ == "__main__":
    WORDS = [os.path.abspath(word) for word in sys.argv[1:3]]
    unittest.TextTestRunner(verbosity=0).run(Speed())
    assert WebTest
