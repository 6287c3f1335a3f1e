"""What telephones show of a plan that changes: by another reader of calendars."""
import datetime
import itertools
import os
import random
import re
import unittest

from browser import read_calendar, with_reader
from plain_instance import instance_of
from support import SMALL, SMALL_SOL
from test_publish import Publishing
from test_weeks import LABELS, TERM, small_times

from office.data.calendars import Events, calendar_of
from office.data.identities import known_again, paired
from office.data.label_files import read_labels
from office.data.plan_book import Known, book_text, new_book, read_book
from office.data.telling import Told
from office.day.folder import Day
from office.day.instance import read_instance
from office.day.lecture import Lecture
from office.past.timetable_at import At
from office.work.week import View, all_views

SINGLE = "course,date,from,what,new date,new from,new to,new room,why\n"


def at_of(lectures, instance=None):
    """A timetable as the program would answer it."""
    return At(Day("day"), None, 0, 0, instance or read_instance(SMALL), lectures, {}, {})


class Pairs(unittest.TestCase):
    def test_fewest_changes(self):
        slots = [(day, period) for day in range(2) for period in range(3)]
        drawn = random.Random(89)
        for _ in range(400):
            count = drawn.randint(1, 4)
            old, new = (
                [Lecture("c", drawn.choice("AB"), *slot) for slot in drawn.sample(slots, count)]
                for _ in range(2)
            )
            known = [Known(f"c.{number}", one, True) for number, one in enumerate(old)]

            def changes(pairs):
                times = sum(was.slot != now.slot for was, now in pairs)
                return times, sum(was.room != now.room for was, now in pairs)

            least = min(changes(list(zip(old, order))) for order in itertools.permutations(new))
            found = paired(known, new)
            self.assertEqual(sorted(one.name for one, _ in found), [one.name for one in known])
            self.assertEqual(changes([(one.lecture, now) for one, now in found]), least)

    def test_others_keep_theirs_when_one_is_moved(self):
        # Ethics Mon 18:15, Tue 16:15, Tue 18:15; that of Monday goes to Fri 16:15
        before = [Lecture("eth", "A", 0, 5), Lecture("eth", "A", 1, 4), Lecture("eth", "A", 1, 5)]
        known = known_again((), before)
        after = [before[1], before[2], Lecture("eth", "A", 4, 4)]
        now = {one.lecture: one.name for one in known_again(known, after)}
        self.assertEqual([now[one] for one in after], ["eth.2", "eth.3", "eth.1"])

    def test_taken_out_and_placed_again(self):
        known = known_again((), [Lecture("c", "A", 0, 0), Lecture("c", "A", 0, 1)])
        without = known_again(known, [Lecture("c", "A", 0, 1)])
        again = known_again(without, [Lecture("c", "A", 0, 1), Lecture("c", "B", 1, 1)])
        self.assertEqual({one.name for one in again if one.is_placed}, {"c.1", "c.2"})
        self.assertEqual(len(again), 2)


class Terms(Publishing):
    def labels(self, single=""):
        folder = self.path("labels")
        os.makedirs(folder, exist_ok=True)
        texts = {"labels": LABELS, "times": small_times(), "term": TERM, "exceptions": single}
        for name, text in texts.items():
            self.write(f"labels/{name}.csv", text or SINGLE)
        return read_labels(folder)

    def events(self, book, labels, view=View("course", "geo")):
        """What a telephone shows."""
        found = read_calendar(calendar_of(Events(book), labels, view))
        self.assertEqual(found["errors"], [])
        return found["events"]

    def expected(self, lectures, labels, single=()):
        """All events of a timetable, worked out anew: when, what and where, and whether it is."""
        clocks, days = [("08:15", "09:45"), ("10:15", "11:45"), ("12:15", "13:45")], {}
        date = datetime.date(2026, 10, 12)
        while date <= datetime.date(2027, 2, 5):
            if not datetime.date(2026, 12, 24) <= date <= datetime.date(2027, 1, 6):
                days.setdefault(date.weekday(), []).append(date)
            date += datetime.timedelta(1)
        for one in lectures:
            for date in days[0 if one.day == 0 else 3]:
                begins, ends = clocks[one.period]
                room = labels.name("room", one.room)
                what = labels.name("course", one.course)
                to = next((row for row in single if row[:2] == (one.course, date)), None)
                if to is None:
                    yield f"{date}T{begins}", f"{date}T{ends}", what, room
                elif to[2] == "off":
                    yield f"{date}T{begins}", f"{date}T{ends}", f"Off: {what}", room
                else:
                    yield f"{date}T{begins}", f"{date}T{ends}", what, to[2]

    def drawn_change(self, drawn, lectures):
        """A timetable after a draft: moved, elsewhere, taken out, placed."""
        slots = [(day, period) for day in range(2) for period in range(3)]
        found = list(lectures)
        for _ in range(drawn.randint(1, 3)):
            kind, one = drawn.choice(["move", "move", "room", "drop", "place"]), drawn.choice(found)
            taken = {each.slot for each in found if each.course == one.course}
            free = [slot for slot in slots if slot not in taken]
            if kind in ("move", "place") and free:
                if kind == "move":
                    found.remove(one)
                found.append(Lecture(one.course, drawn.choice("AB"), *drawn.choice(free)))
            elif kind == "room":
                found[found.index(one)] = one._replace(room="B" if one.room == "A" else "A")
            elif kind == "drop" and len(found) > 2:
                found.remove(one)
        return found

    @with_reader
    def test_a_drawn_term(self):
        drawn = random.Random(2026)
        instance = instance_of(SMALL)
        lectures = [Lecture("geo", "A", 0, 1), Lecture("geo", "A", 1, 2), Lecture("top", "B", 0, 2)]
        lectures += [Lecture("alg", "B", 0, 0), Lecture("alg", "A", 1, 1)]
        book, single, wanted, seen = new_book(), [], {}, {}
        views = [view for view in all_views(read_instance(SMALL)) if view.kind == "course"]
        since, time = "", datetime.datetime(2026, 10, 1, 12, 0)
        for step in range(16):
            if step:
                lectures = self.drawn_change(drawn, lectures)
                time += datetime.timedelta(drawn.randint(1, 9), 60 * drawn.randint(0, 600))
                since = f"{time:%Y-%m-%dT%H:%M}"
            single = [one for one in single if drawn.random() < 0.8]
            for row in drawn.sample(list(self.expected(lectures, self.labels())), 2):
                course = {self.labels().name("course", c): c for c in instance.courses}[row[2]]
                date = datetime.date.fromisoformat(row[0][:10])
                same = [r for r in self.expected(lectures, self.labels()) if r[2] == row[2]]
                if [r[0][:10] for r in same].count(row[0][:10]) == 1:
                    single = [one for one in single if one[:2] != (course, date)]
                    single.append((course, date, drawn.choice(["off", "Town hall"])))
            text = SINGLE + "".join(
                f"{course},{date},,off,,,,,a fair\n"
                if to == "off"
                else f"{course},{date},,moved,,,,{to},\n"
                for course, date, to in single
            )
            labels = self.labels(text)
            stamp = f"202601{step + 1:02}T000000Z"
            told = Told(book, at_of(lectures), labels, since, stamp)
            self.assertEqual(read_book(book_text(told.book), "plan.json"), told.book)
            # several of a course on a date: then the row fits none, and it says so
            self.assertTrue(all("several" in n or "no lecture" in n for n in told.notes))
            counts = {}
            for one in self.expected(lectures, labels):
                code = {labels.name("course", c): c for c in instance.courses}[one[2]]
                counts[code, one[0][:10]] = counts.get((code, one[0][:10]), 0) + 1
            clear = [r for r in single if counts.get((r[0], f"{r[1]}")) == 1]
            wanted = {one for one in wanted if one[0] < since}
            wanted |= {one for one in self.expected(lectures, labels, clear) if one[0] >= since}
            book = told.book
            shown = [one for view in views for one in self.events(book, labels, view)]
            keys = [(e["begins"][:16], e["ends"][:16], e["summary"], e["location"]) for e in shown]
            self.assertEqual(sorted(keys), sorted(wanted))
            self.assertEqual(len({e["uid"] for e in shown}), len(shown))
            for event, key in zip(shown, keys):
                self.assertEqual(event["stamp"], event["modified"])
                self.assertEqual(event["status"] == "CANCELLED", key[2].startswith("Off: "))
                was = seen.get(event["uid"])
                if was is not None and was[0] == (*key, event["told"]):
                    self.assertEqual(was[1:], (event["sequence"], event["stamp"]))
                elif was is not None:
                    self.assertGreater(event["sequence"], was[1])
                    self.assertGreater(event["stamp"], was[2])
                seen[event["uid"]] = (*key, event["told"]), event["sequence"], event["stamp"]
        self.assertGreater(len(seen), 60)

    @with_reader
    def test_a_change_holds_from_a_date_on(self):
        before = [Lecture("geo", "A", 0, 1), Lecture("geo", "A", 1, 2)]
        after = [Lecture("geo", "A", 0, 1), Lecture("geo", "A", 1, 0)]
        labels = self.labels()
        first = Told(new_book(), at_of(before), labels, "2026-12-01T09:00", "20261001T000000Z").book
        # the first one is for the whole term
        self.assertEqual(self.events(first, labels)[0]["begins"][:16], "2026-10-12T10:15")
        told = Told(first, at_of(after), labels, "2026-12-03T11:00", "20261203T100000Z").book
        thursdays = {
            e["begins"][:10]: e for e in self.events(told, labels) if e["begins"][11:16] != "10:15"
        }
        clocks = {date: e["begins"][11:16] for date, e in thursdays.items()}
        # it was told at 11: what begins at 8:15 has begun, so neither is held on that day; before
        # it all stays, with its stamp; after it each is the same event at its new time
        self.assertEqual(clocks["2026-11-26"], "12:15")
        self.assertNotIn("2026-12-03", clocks)
        self.assertEqual(clocks["2026-12-10"], "08:15")
        self.assertEqual(thursdays["2026-11-26"]["sequence"], 0)
        self.assertEqual(thursdays["2026-12-10"]["sequence"], 1)
        uids = [{e["uid"] for e in self.events(book, labels)} for book in (first, told)]
        self.assertEqual(uids[1] - uids[0], set())
        whole = Told(told, at_of(after), labels, "", "20261204T000000Z").book
        found = {e["begins"][11:16] for e in self.events(whole, labels)}
        self.assertEqual(found, {"10:15", "08:15"})

    def test_what_was_held_in_a_week_is_not_the_new_event_of_it(self):
        labels, monday = self.labels(), [Lecture("geo", "A", 0, 1)]
        first = Told(new_book(), at_of(monday), labels, "", "20261001T000000Z").book
        told = Told(first, at_of([Lecture("geo", "A", 1, 1)]), labels, "2026-12-02T00:00", "x").book
        week = {name: e.begins for name, e in told.events.items() if "2026W49" in name}
        wanted = {"geo.1.2026W49": "2026-11-30T10:15", "geo.1.2026W49.2": "2026-12-03T10:15"}
        self.assertEqual(week, wanted)
        again = Told(told, at_of([Lecture("geo", "A", 1, 1)]), labels, "2026-12-09T00:00", "y").book
        self.assertEqual(again, told)

    def test_what_fits_no_lecture_is_said(self):
        labels = self.labels(SINGLE + "geo,2026-12-01,,off,,,,,ill\nxyz,2026-12-07,,off,,,,,\n")
        told = Told(new_book(), at_of([Lecture("geo", "A", 0, 1)]), labels, "", "x")
        self.assertEqual(
            told.notes,
            [
                "exceptions.csv row 2: it has no lecture then: 2026-12-01: geo: off (ill)",
                "exceptions.csv row 3: it has no lecture then: 2026-12-07: xyz: off",
            ],
        )


class Kept(Publishing):
    def uids(self, file, to="site"):
        return {line for line in self.tree(to)[file].split(b"\r\n") if line.startswith(b"UID:")}

    def test_in_another_folder_of_another_name(self):
        self.labelled()
        self.publish()
        before = {name: self.uids(name) for name in self.tree() if name.endswith(".ics")}
        with open(SMALL) as file:
            self.write("other.ctt", re.sub("Name: .*", "Name: other", file.read()))
        again = self.labelled(instance=self.path("other.ctt"), name="renamed")
        self.publish(day=again.path)
        self.assertEqual({name: self.uids(name) for name in before}, before)
        # the day has taken the identities along
        self.publish(day=again.path, to="elsewhere")
        self.assertEqual({name: self.uids(name, "elsewhere") for name in before}, before)

    def test_a_renamed_course_keeps_lectures_and_links(self):
        self.labelled()
        self.publish()
        before = self.uids("course/geo.ics")
        for name, path in (("new.ctt", SMALL), ("new.sol", SMALL_SOL)):
            with open(path) as file:
                self.write(name, file.read().replace("geo", "geometry"))
        files = {"instance": self.path("new.ctt"), "start": self.path("new.sol")}
        day = self.labelled(**files, name="tuesday")
        self.publish(day=day.path)
        self.assertEqual(self.uids("course/geometry.ics"), before)
        self.assertEqual(self.tree()["course/geo.ics"], self.tree()["course/geometry.ics"])
        self.assertIn(b'href="../course/geometry.html"', self.tree()["course/geo.html"])

    def test_single_dates_on_pages(self):
        row = "geo,2026-12-03,,moved,2026-12-04,8:15,,Town hall,a fair\n"
        self.labelled(exceptions=SINGLE + row + "geo,2026-12-10,12:15,off,,,,,ill\n")
        self.publish()
        page = self.tree()["teacher/t2.html"].decode()
        name = "Geometrie für Anfänger"
        self.assertIn(f"Fri 2026-12-04 08:15\N{EN DASH}09:45: {name}: Town hall, on this", page)
        self.assertIn(f"Thu 2026-12-10 12:15\N{EN DASH}13:45: {name}: off (ill)", page)
        shown = self.office("show", self.path("day"), "--teacher", "t2")[1]
        self.assertIn("single dates\n  2026-12-03: geo: moved to 2026-12-04, 8:15, Town", shown)
        calendar = self.tree()["teacher/t2.ics"].replace(b"\r\n ", b"")
        self.assertIn(b"STATUS:CANCELLED", calendar)
        self.assertIn(b"DTSTART;TZID=Europe/Berlin:20261204T081500", calendar)

    def test_from_a_date_by_the_command(self):
        day = self.labelled()
        self.publish()
        self.accept(day.path, "move geo 1 2 A 1 1")
        self.publish("--from", "2027-01-11")
        calendar = self.tree()["course/geo.ics"]
        self.assertIn(b":20270107T121500", calendar)
        self.assertIn(b":20270114T101500", calendar)
        self.assertIn("from 2027-01-11 on: ", self.tree()["teacher/t2.html"].decode())
        self.publish("--whole-term")
        self.assertNotIn(b"T121500\r\nDTEND", self.tree()["course/geo.ics"])
        status, _, said = self.office("publish", day.path, self.path("site"), "--from", "soon")
        self.assertEqual((status, "soon is no date" in said), (2, True))

    def test_an_earlier_site_keeps_its_identities(self):
        day = self.labelled()
        self.publish()
        before = self.tree()["course/geo.ics"]
        os.remove(self.path("site/plan.json"))
        os.remove(day.file("plan.json"))
        self.publish()
        uids = self.uids("course/geo.ics")
        self.assertEqual(len(uids), before.count(b"UID:"))
        wanted = f"UID:geo.1.2026W42@{read_instance(SMALL).name}.timedesk"
        self.assertIn(wanted, {uid.decode() for uid in uids})


if __name__ == "__main__":
    unittest.main()
