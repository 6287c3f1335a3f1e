"""Names and times that change while seats are served."""
import os
import time

from served import (
    BOX,
    SMALL,
    SPRING,
    SPRING_SOL,
    BrowserTest,
    WebTest,
    cell,
    skip_without_browser,
    skip_without_tornado,
    wait_until,
)

HEAD = "kind,code,name,short name\n"
TIMES = "day,period,weekday,from,to\n1,1,Mon,8:15,9:45\n1,2,Mon,10:15,11:45\n"


@skip_without_tornado
class Told(WebTest):
    def setUp(self):
        super().setUp()
        self.open("day", SMALL, "1")
        self.serve("day")

    def title(self):
        return self.ask("show", {"view": ["course", "geo"]})[1]["picture"]["week"]["title"]

    def test_taken_over(self):
        """A seat and who reads have new names at once, and those before if the new ones are
        wrong."""
        self.ask("hello", {"name": "anna"})
        self.assertEqual(self.title(), "geo")
        self.write("day/labels.csv", HEAD + "course,geo,Geometry,Geo\n")
        self.assertTrue(wait_until(lambda: self.title() == "Geometry"))
        self.write("day/labels.csv", HEAD + "course,geo,Geometry,Geo\ncourse,geo,Again,Geo\n")
        time.sleep(0.6)
        self.assertEqual(self.title(), "Geometry")
        self.write("day/times.csv", TIMES)
        self.write("day/labels.csv", HEAD + "course,geo,Shapes,Sha\n")
        self.assertTrue(wait_until(lambda: self.title() == "Shapes"))
        found = self.ask("hello", {}, "reader")[1]
        self.assertEqual(found["slots"][0][:2], ["Mon 8:15", "Mon 10:15"])
        self.assertIn(["geo", "Shapes"], found["named"]["course"])
        # a code stands beside a name that two have
        self.write("day/labels.csv", HEAD + "course,geo,Shapes,Sha\ncourse,alg,Shapes,Alg\n")
        self.assertTrue(wait_until(lambda: self.title() == "Shapes (geo)"))
        os.remove(self.path("day/labels.csv"))
        self.assertTrue(wait_until(lambda: self.title() == "geo"))


@skip_without_browser
class Seen(BrowserTest):
    def test_taken_over(self):
        """The week, the search, the draft and what was accepted have the new names; a box that is
        open keeps what was typed in it."""
        self.open("day", SPRING, "2", "--start", SPRING_SOL)
        self.serve("day")
        anna, reader = self.planner(), self.browser()
        reader.go(self.links["reader"])
        reader.wait("return performance.getEntriesByName('ready').length > 0")
        self.show(reader, "c0109")
        self.show(anna, "c0109")
        self.sit("day", 1, "open\ndrop c0014 0 4\ncommit\n", "--name", "ben")
        anna.sees("ben", "#news")
        self.move(anna, (4, 1), (4, 3))
        anna.press("c")
        anna.wait(BOX)
        anna.type("a rea")
        names = "course,c0109,Linear Algebra,LinAlg\nroom,r04,Great Hall,Hall\n"
        self.write("day/labels.csv", HEAD + names + "course,c0014,Optics,Opt\n")
        self.write("day/times.csv", TIMES)
        for one in (anna, reader):
            one.sees("Linear Algebra", "#week-title")
            one.sees("Mon", ".row.head")
            one.sees("8:15", ".period")
        anna.sees("Great Hall", "#draft")
        anna.sees("Hall", cell((4, 3)))
        anna.sees("Optics", "#news")
        self.assertEqual(anna.run("return document.getElementById('why').value"), "a rea")
        anna.type("son")
        anna.press("Enter")
        anna.sees("Committed as draft", "#said")
        self.assertIn("a reason", self.office("log", self.path("day"))[1])
        self.show(anna, "Optics")
        for one in (anna, reader):
            self.is_clean(one)
