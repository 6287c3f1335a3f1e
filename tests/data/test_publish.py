"""The weeks of a day in a folder for a web server."""
import base64
import json
import os
import re
import signal
import subprocess
import sys
import time
import unittest
import xml.etree.ElementTree as ElementTree
from urllib.parse import unquote

from browser import Pages, read_calendar, with_browser, with_reader
from plain_instance import instance_of
from support import HERE, PATIENCE, SMALL, SMALL_SOL, wait_until
from test_weeks import LABELS, TERM, Weeks, small_times

from office.data.changed_weeks import by_view, changes_between
from office.data.site import file_name
from office.day.instance import read_instance
from office.day.lecture import Lecture

MOVED = "Geometrie für Anfänger: Thu 12:15, Hall 2, left -> Thu 10:15, Hall 2, left"
# publishes with a stop before so many files are written
STOPPED = """
import os, signal, sys
sys.path.insert(0, {tools!r})
from office.main import main
left = {files}
sync = os.fsync
def stop(file):
    global left
    left -= 1
    if left < 0:
        os.kill(os.getpid(), signal.SIGKILL)
    sync(file)
os.fsync = stop
main(["publish", *sys.argv[1:]])
"""


class Publishing(Weeks):
    def publish(self, *words, day=None, to="site"):
        """What a publishing prints and says."""
        day = day or self.path("day")
        status, printed, said = self.office("publish", day, self.path(to), *words)
        self.assertEqual(status, 0, said)
        return printed, said

    def tree(self, name="site"):
        """The files of the folder with what they have."""
        found = {}
        top = self.path(name)
        for folder, _, names in os.walk(top):
            for file in names:
                path = os.path.join(folder, file)
                with open(path, "rb") as text:
                    found[os.path.relpath(path, top)] = text.read()
        return found

    def accept(self, day, *edits):
        """Has drafts accepted in a day at which nobody sits: its minutes, as a desk writes them."""
        with open(os.path.join(day, "minutes"), "a") as file:
            for edit in edits:
                file.write(f"entry 0 1\n{edit}\ndone\n")


class Files(Publishing):
    def test_what_there_is(self):
        self.labelled()
        printed, said = self.publish()
        self.assertEqual(printed, "")
        self.assertIn("office: day, at its start: 0 lectures changed, 23 files of 23 written", said)
        instance = instance_of(SMALL)
        wanted = {"index.html", "changes.html", "published.json", "plan.json"}
        for kind, codes in (
            ("course", instance.courses),
            ("room", instance.rooms),
            ("teacher", instance.teachers),
            ("curriculum", instance.curricula),
        ):
            endings = ["html", "ics", *(["atom"] if kind in ("teacher", "curriculum") else [])]
            wanted |= {f"{kind}/{code}.{ending}" for code in codes for ending in endings}
        self.assertEqual(set(self.tree()), wanted)

    def test_each_link_leads_somewhere(self):
        self.labelled(labels=LABELS + "room,B,Übungsraum 1,\n")
        self.publish()
        files = self.tree()
        count = 0
        for name, text in files.items():
            if not name.endswith(".html"):
                continue
            self.assertNotRegex(text.decode(), r"(?:src|href)=\"(?:https?:)?//|@import|url\(")
            for target in re.findall(r'href="([^"]*)"', text.decode()):
                path = os.path.normpath(os.path.join(os.path.dirname(name), unquote(target)))
                self.assertIn(path, files)
                count += 1
        self.assertEqual(count, 37)

    def test_names_of_files(self):
        codes = ["alg", "a/b", "..", "x.y", "Übung", "a~2fb"]
        codes += ["x" * 300, "x" * 299 + "y", "ü" * 200]
        names = [file_name(code) for code in codes]
        self.assertEqual(len(set(names)), len(codes))
        for name in names:
            self.assertRegex(name, r"^[\w~-]+$")
            self.assertLess(len(f"{name}.html".encode()), 255)

    def test_without_a_term_there_are_pages_alone(self):
        self.make_day()
        said = self.publish()[1]
        self.assertIn("office: no calendar without the days of teaching", said)
        self.assertEqual([name for name in self.tree() if name.endswith(".ics")], [])
        self.assertNotIn("Calendar", self.tree()["teacher/t1.html"].decode())


class Check(Publishing):
    """The page in which a visitor checks the timetable himself."""

    def setUp(self):
        super().setUp()
        page = self.path("check.html")
        with open(page, "w") as file:
            file.write('<script type="application/json" id="given">{}</script>')
        self.environment = {**self.environment, "CHECK_PAGE": page}

    def given(self):
        """What stands in the page, with the texts of the files."""
        text = self.tree()["check.html"].decode()
        found = json.loads(re.search(r'id="given">([^<]*)</script>', text)[1])
        for file in found["files"]:
            file["text"] = base64.b64decode(file["text"])
        return found

    def test_only_if_asked(self):
        self.labelled()
        said = self.publish()[1]
        self.assertNotIn("check.html", self.tree())
        self.assertNotIn("Check this", self.tree()["index.html"].decode())
        self.assertNotIn("numbers of students", said)

    def test_what_is_shown_to_whom(self):
        """It is said before anything is written, and on the page what is not checked."""
        self.labelled()
        said = self.publish("--with-check")[1].splitlines()
        self.assertIn("whoever reads the site gets the whole instance", said[0])
        self.assertIn("numbers of students, and when teachers and rooms are closed", said[0])
        self.assertIn('<a href="check.html">Check', self.tree()["index.html"].decode())
        told = " ".join(self.given()["told"])
        self.assertIn("Not checked are the names", told)
        self.assertIn("day, at its start", told)

    def test_files(self):
        """The instance, the timetable as it is published, and what is barred and closed."""
        day = self.labelled()
        with open(day.barred, "w") as file:
            file.write("Barred: 0\nEND.\n")
        with open(day.file("blocked"), "w") as file:
            file.write("Blocked: 0\nEND.\n")
        self.accept(day.path, "move geo 1 2 A 1 1")
        self.publish("--with-check")
        given = self.given()
        texts = {file["kind"]: file["text"] for file in given["files"]}
        with open(SMALL, "rb") as file:
            self.assertEqual(texts.pop("instance"), file.read())
        self.assertIn(b"geo A 1 1\n", texts.pop("solution"))
        self.assertEqual(
            texts, {"barred": b"Barred: 0\nEND.\n", "blocked": b"Blocked: 0\nEND.\n"}
        )
        self.assertRegex(given["days"], "^[MTWFS][a-z]{2},")

    def test_follows_the_timetable(self):
        day = self.labelled()
        self.publish("--with-check")
        before = self.given()
        self.assertIn("nothing has changed", self.publish("--with-check")[1])
        self.accept(day.path, "move geo 1 2 A 1 1")
        self.publish("--with-check")
        self.assertNotEqual(self.given(), before)

    def test_without_a_page(self):
        self.labelled()
        self.environment["CHECK_PAGE"] = self.path("none")
        status, printed, said = self.office(
            "publish", self.path("day"), self.path("site"), "--with-check"
        )
        self.assertEqual((status, printed), (3, ""))
        self.assertIn("there is no page of checks here: ./check-page makes it", said)
        self.assertFalse(os.path.exists(self.path("site")))


class Changed(Publishing):
    def test_a_page_only_if_it_changed(self):
        day = self.labelled()
        self.publish()
        before, version = self.tree(), os.readlink(self.path("site"))
        times = {name: os.stat(self.path(f"site/{name}")).st_ino for name in before}
        self.assertIn("office: nothing has changed", self.publish()[1])
        self.assertEqual(os.readlink(self.path("site")), version)
        self.accept(day.path, "move geo 1 2 A 1 1")
        printed, said = self.publish()
        self.assertIn("day, after 1 draft: 1 lecture changed", said)
        after = self.tree()
        changed = {name for name in after if after[name] != before.get(name)}
        weeks = {"course/geo", "curriculum/q1", "room/A", "teacher/t2"}
        wanted = {f"{week}.{ending}" for week in weeks for ending in ("html", "ics")}
        others = {"index.html", "changes.html", "published.json", "plan.json"}
        others |= {"curriculum/q1.atom", "teacher/t2.atom"}
        self.assertEqual(changed, wanted | others)
        # the others are the same files, so that their times are the old ones
        same = {n for n in after if os.stat(self.path(f"site/{n}")).st_ino == times[n]}
        self.assertEqual(same, set(after) - changed)
        self.assertEqual(
            printed,
            f"curriculum Mathematics: {MOVED}\nteacher t2: {MOVED}\n",
        )
        self.assertIn(MOVED.replace(">", "&gt;"), after["changes.html"].decode())
        self.assertIn("1 lecture changed", after["index.html"].decode())

    def test_as_json(self):
        day = self.labelled()
        self.publish()
        self.accept(day.path, "move geo 1 2 A 1 1", "drop top 0 2")
        lines = [json.loads(line) for line in self.publish("--json")[0].splitlines()]
        told = {(line["kind"], line["code"]): line for line in lines}
        self.assertEqual(set(told), {("curriculum", "q1"), ("teacher", "t1"), ("teacher", "t2")})
        ada = told["teacher", "t1"]
        self.assertEqual(ada["name"], "Ada Byron")
        self.assertEqual((ada["page"], ada["calendar"]), ("teacher/t1.html", "teacher/t1.ics"))
        self.assertEqual(ada["changes"], ["top: taken out of Mon 12:15, B"])
        self.assertEqual(told["teacher", "t2"]["changes"], [MOVED])

    def test_other_names_are_no_changes(self):
        day = self.labelled()
        self.publish()
        with open(day.file("labels.csv"), "a") as file:
            file.write("teacher,t2,Karl Müller,\n")
        printed, said = self.publish()
        self.assertEqual(printed, "")
        self.assertIn("0 lectures changed", said)
        self.assertIn("Karl Müller", self.tree()["teacher/t2.html"].decode())
        self.assertNotIn("Karl", self.tree()["changes.html"].decode())

    def test_pairs(self):
        before = [Lecture("geo", "A", 0, 1), Lecture("geo", "A", 1, 2), Lecture("top", "B", 0, 2)]
        after = [Lecture("geo", "B", 0, 1), Lecture("geo", "A", 1, 0), Lecture("alg", "B", 0, 2)]
        shifts = changes_between(before, after)
        self.assertEqual(
            [(one.was, one.now) for one in shifts],
            [(before[0], after[0]), (before[1], after[1]), (before[2], None), (None, after[2])],
        )
        views = by_view(read_instance(SMALL), shifts)
        touched = {tuple(view): len(found) for view, found in views.items()}
        self.assertEqual(touched["room", "B"], 3)
        self.assertEqual(touched["teacher", "t1"], 2)
        # what is gone from the instance has no week
        gone = changes_between([Lecture("old", "A", 0, 0)], [])
        self.assertEqual(by_view(read_instance(SMALL), gone), {})


class Whole(Publishing):
    def test_killed_in_the_middle(self):
        day = self.labelled()
        self.publish()
        before = self.tree()
        self.accept(day.path, "move geo 1 2 A 1 1")
        environment = {**os.environ, "TIMEDESK": self.program}
        for files in range(0, 11, 5):
            script = STOPPED.format(tools=os.path.join(HERE, "tools"), files=files)
            words = [sys.executable, "-c", script, day.path, self.path("site")]
            done = subprocess.run(words, env=environment, stderr=subprocess.DEVNULL)
            self.assertEqual(done.returncode, -signal.SIGKILL)
            self.assertEqual(self.tree(), before)
        self.publish()
        self.assertNotEqual(self.tree(), before)
        versions = os.listdir(self.path(".site.published"))
        self.assertEqual(sorted(versions), ["1", "2", "lock"])

    def test_what_is_there_is_not_written_over(self):
        self.labelled()
        os.mkdir(self.path("site"))
        self.publish()
        os.mkdir(self.path("other"))
        self.write("other/index.html", "mine")
        os.symlink("other", self.path("link"))
        for name in "other", "link":
            status, _, said = self.office("publish", self.path("day"), self.path(name))
            self.assertEqual(status, 3)
            self.assertIn("is not written over", said)
        with open(self.path("other/index.html")) as file:
            self.assertEqual(file.read(), "mine")

    def test_follow(self):
        labels = self.path("labels")
        os.mkdir(labels)
        for name, text in (("labels", LABELS), ("times", small_times()), ("term", TERM)):
            self.write(f"labels/{name}.csv", text)
        day, site = self.path("day"), self.path("site")
        office = self.open("day", SMALL, "1", "--start", SMALL_SOL, "--labels", labels)
        follower = self.start("publish", day, site, "--follow")
        self.assertTrue(wait_until(lambda: os.path.exists(site)))
        status, _, said = self.office("publish", day, site)
        self.assertEqual((status, "is being published already" in said), (3, True))
        self.sit("day", 0, "open\nmove geo 1 2 A 1 1\ncommit\n")
        self.assertTrue(wait_until(lambda: os.readlink(site).endswith("/2")))
        self.assertIn(MOVED.replace(">", "&gt;"), self.tree()["changes.html"].decode())
        # what is blocked is published as what is committed
        self.office("block", day, "room", "B", "1")
        self.assertTrue(wait_until(lambda: os.readlink(site).endswith("/3")))
        page = self.tree()["room/B.html"].decode().split("<body")[1]
        self.assertNotIn("top", page.split('class="changes"')[0])
        self.sit("day", 0, "open\nplace top A 1 2\ncommit\n")
        self.assertTrue(wait_until(lambda: os.readlink(site).endswith("/4")))
        self.office("close", day, "--wait", "0")
        self.assertEqual(office.wait(PATIENCE), 0)
        self.assertEqual(follower.wait(PATIENCE), 0)
        self.assertIn(f"teacher t2: {MOVED}\n", follower.stdout.read())

    @with_reader
    def test_calendars(self):
        self.labelled()
        self.publish()
        files = {name: text for name, text in self.tree().items() if name.endswith(".ics")}
        found = {name: read_calendar(text) for name, text in files.items()}
        self.assertEqual(len(found), 8)
        self.assertEqual([one["errors"] for one in found.values() if one["errors"]], [])
        uids = {kind: set() for kind in ("course", "room", "teacher")}
        for name, one in found.items():
            uids.setdefault(name.split("/")[0], set()).update(e["uid"] for e in one["events"])
        # a lecture is the same event in each of its calendars
        self.assertEqual(uids["course"], uids["room"])
        self.assertEqual(uids["course"], uids["teacher"])


class Readers(Publishing):
    def test_codes_that_were_made_are_not_shown(self):
        rows = "course,Linear-Algebra,Linear Algebra\ncourse,x,X\nroom,Hall-2,Hall 2\n"
        self.labelled(labels="kind,code,name\n" + rows)
        for path, old in ((SMALL, "new.ctt"), (SMALL_SOL, "new.sol")):
            with open(path) as file:
                text = file.read().replace("alg", "Linear-Algebra").replace("A ", "Hall-2 ")
            self.write(old, text)
        files = {"instance": self.path("new.ctt"), "start": self.path("new.sol")}
        day = self.labelled(**files, name="named", labels="kind,code,name\n" + rows)
        self.publish(day=day.path, to="new")
        page = self.tree("new")["curriculum/q1.html"].decode()
        self.assertIn("<b>Linear Algebra</b><p>Hall 2, t1</p>", page)
        self.assertNotIn("Linear-Algebra", page)

    def test_in_german(self):
        day = self.labelled()
        self.publish("--lang", "de")
        self.accept(day.path, "move geo 1 2 A 1 1", "drop top 0 2")
        self.publish("--lang", "de")
        page = self.tree()["teacher/t2.html"].decode()
        for text in (
            'lang="de"',
            "Lehrperson: 1 Veranstaltung",
            "Alle Wochen",
            "Adresse des Kalenders",
            "Do</h2>",
            "Was sich geändert hat",
            "Do 12:15, Hall 2, left -&gt; Do 10:15, Hall 2, left",
        ):
            self.assertIn(text, page)
        self.assertIn("top: entfällt am Mo 12:15, B", self.tree()["changes.html"].decode())
        index = self.tree()["index.html"].decode()
        self.assertIn("Lehrende", index)
        self.assertIn("2 Termine geändert", index)
        self.assertIn("nichts heißt so", index)

    def test_a_feed(self):
        day = self.labelled()
        self.publish()
        first = ElementTree.fromstring(self.tree()["teacher/t2.atom"])
        name = "{http://www.w3.org/2005/Atom}"
        self.assertEqual(first.findall(f"{name}entry"), [])
        self.accept(day.path, "move geo 1 2 A 1 1")
        self.publish()
        feed = ElementTree.fromstring(self.tree()["teacher/t2.atom"])
        self.assertEqual(feed.find(f"{name}id").text, first.find(f"{name}id").text)
        entries = feed.findall(f"{name}entry")
        self.assertEqual([one.find(f"{name}content").text for one in entries], [MOVED])
        self.assertEqual(entries[0].find(f"{name}updated").text, feed.find(f"{name}updated").text)
        # who has no change has the same feed
        self.assertEqual(
            ElementTree.fromstring(self.tree()["teacher/t1.atom"]).findall(f"{name}entry"), []
        )

    def test_in_the_order_of_letters(self):
        names = "teacher,t1,Zoe Zander\nteacher,t2,Åke Ånd\n"
        self.labelled(labels="kind,code,name\n" + names)
        self.publish()
        index = self.tree()["index.html"].decode()
        self.assertLess(index.index("Åke"), index.index("Zoe"))


class InABrowser(Publishing):
    @with_browser
    def test_pages(self):
        self.labelled(labels=LABELS + "teacher,t2,Karl Müller,\n")
        self.publish()
        index = self.path("site/index.html")
        for width in 400, 1400:
            for night in False, True:
                found = Pages.measure(index, width, night)
                self.assertLessEqual(found["wide"], width)
                self.assertEqual((found["loaded"], found["items"]), (0, 8))
        # typing narrows it, also without an accent, and Enter goes to the first
        Pages.go(index, 400)
        field = "document.querySelector('input')"
        Pages.run(f"{field}.value = 'muller'; {field}.dispatchEvent(new Event('input'))")
        self.assertEqual(Pages.run("document.querySelectorAll('li:not([hidden])').length"), 1)
        self.assertEqual(Pages.run("document.querySelectorAll('section:not([hidden])').length"), 1)
        enter = "new KeyboardEvent('keydown', {key: 'Enter'})"
        Pages.run(f"{field}.dispatchEvent({enter})")
        until = time.monotonic() + PATIENCE
        while "Karl" not in (Pages.run("document.title") or "") and time.monotonic() < until:
            time.sleep(0.05)
        self.assertIn("Karl Müller", Pages.run("document.title"))
        # that nothing is called so is said
        Pages.go(index, 400)
        seen = "document.querySelectorAll('[role=status]:not([hidden])').length"
        self.assertEqual(Pages.run(seen), 0)
        Pages.run(f"{field}.value = 'xyz'; {field}.dispatchEvent(new Event('input'))")
        self.assertEqual(Pages.run(seen), 1)
        # without script all is there
        found = Pages.measure(index, 400, script=False)
        self.assertEqual(found["items"], 8)
        self.assertEqual(Pages.run("document.querySelectorAll('input').length"), 0)
        self.assertEqual(Pages.sheets(self.path("site/teacher/t2.html")), [(842, 595)])


if __name__ == "__main__":
    unittest.main()
