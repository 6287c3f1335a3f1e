#!/usr/bin/env python3
"""Makes the pictures of seats in browsers that the documents have, from a day that is planned by
two browsers: web-held.png, web-night.png, web-stale.png and web-reader.png. It needs Chromium and
its driver.

    tools/seat_pictures.py [FOLDER]      docs by default

PROGRAM names another program than the one that was built.
"""
import os
import sys

HERE = os.path.dirname(os.path.dirname(os.path.abspath(__file__)))
sys.path[:0] = [os.path.join(HERE, "tests", "web"), os.path.join(HERE, "tests", "client")]

from served import POOL, SPRING, SPRING_SOL, BrowserTest, cell  # noqa: E402

FOLDER = os.path.abspath(sys.argv[1] if len(sys.argv) > 1 else os.path.join(HERE, "docs"))
# a lecture of c0109, where it is cheapest, and one of c0097 with its best place
FROM, BEST = (4, 1), (4, 3)
OTHER, THERE = (0, 3), (2, 3)
NAMES = """kind,code,name,short name
course,c0109,Linear Algebra,LinAlg
course,c0078,Optics,Optics
teacher,t067,Dr. Amira Haddad,Haddad
room,r04,Great Hall,Great Hall
room,r01,Seminar 1,Sem 1
"""
TIMES = "day,period,weekday,from,to\n" + "".join(
    f"{day + 1},{period + 1},{weekday},{8 + 2 * period}:15,{9 + 2 * period}:45\n"
    for day, weekday in enumerate(("Monday", "Tuesday", "Wednesday", "Thursday", "Friday"))
    for period in range(5)
)


class Pictures(BrowserTest):
    """A day whose pictures are taken."""

    def save(self, browser, name):
        browser.wait("return document.getElementById('toasts').childElementCount === 0", seconds=60)
        self.take(browser, name)

    def take(self, browser, name):
        path = os.path.join(FOLDER, name)
        browser.picture(path)
        print(path, flush=True)

    def runTest(self):
        os.mkdir(self.path("labels"))
        self.write("labels/labels.csv", NAMES)
        self.write("labels/times.csv", TIMES)
        labels = ["--labels", self.path("labels")]
        self.open("monday", SPRING, "2", "--start", SPRING_SOL, *labels)
        self.serve("monday")
        anna = self.planner(who="Anna Berg")
        ben = self.planner("seat 1", "Ben Okafor", features={"prefers-color-scheme": "dark"})
        anna.sees("Ben Okafor", "#people")
        self.show(anna, "c0109")
        self.pick_up(anna, FROM)
        self.save(anna, "web-held.png")
        self.put_down(anna, BEST)
        anna.sees("your draft: 1 edit", "#costs")
        self.show(anna, "c0097")
        self.move(anna, OTHER, THERE)
        self.show(ben, "c0109")
        ben.press("ArrowDown")
        self.pick_up(ben, FROM, "s")
        ben.press("b", "Enter")
        ben.sees("your draft: 1 edit", "#costs")
        self.committed(ben, "The Great Hall is needed on Friday")
        anna.sees("1 accepted since", "#costs")
        self.show(anna, "c0109")
        self.colours(anna, "dark")
        self.save(anna, "web-night.png")
        self.colours(anna, "light")
        self.commit(anna)
        anna.sees("Your draft is stale: nothing is lost", "#box")
        self.take(anna, "web-stale.png")
        self.read()

    def colours(self, browser, scheme):
        features = [{"name": "prefers-color-scheme", "value": scheme}]
        browser.cdp("Emulation.setEmulatedMedia", features=features)

    def read(self):
        """The week of a curriculum, as who has the reader's link sees it."""
        reader = self.browser()
        reader.go(self.links["reader"])
        reader.wait("return performance.getEntriesByName('ready').length > 0")
        self.show(reader, "q022")
        self.take(reader, "web-reader.png")


def main():
    pictures = Pictures()
    pictures.setUp()
    try:
        pictures.runTest()
    finally:
        pictures.doCleanups()
    assert POOL.driver


if __name__ == "__main__":
    main()
