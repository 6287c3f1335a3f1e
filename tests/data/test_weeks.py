"""The week of one: as text, as a page, as a table and as a calendar."""
import csv
import datetime
import io
import json
import os
import subprocess
import unittest

from browser import Pages, read_calendar, with_browser, with_reader
from plain_instance import instance_of, lectures_of
from support import PROGRAM, SMALL, SMALL_SOL, SPRING, SPRING_SOL, OfficeTest, said

from office.data.calendars import folded
from office.data.time_zones import changes, zone_of
from office.day.folder import Day
from office.refused import Refused
from office.terminal.board import Board
from office.work.week import View

LABELS = """kind,code,name
course,alg,"Linear Algebra; or, \\ a course"
course,geo,Geometrie für Anfänger
room,A,"Hall 2, left"
teacher,t1,Ada Byron
curriculum,q1,Mathematics
"""
TERM = """what,from,to,name
teaching,2026-10-12,2027-02-05,Winter term
off,2026-12-24,2027-01-06,Christmas
zone,,,Europe/Berlin
"""
UTC = datetime.timezone.utc
CLOCKS = [("8:15", "9:45"), ("10:15", "11:45"), ("12:15", "13:45")]


def times(days, periods):
    """A table of times for so many days and periods."""
    rows = [
        f"{day + 1},{period + 1},{'Mon Tue Wed Thu Fri Sat'.split()[day]},"
        f"{8 + period}:00,{8 + period}:50\n"
        for day in range(days)
        for period in range(periods)
    ]
    return "day,period,weekday,from,to\n" + "".join(rows)


def small_times():
    rows = [
        f"{day},{period},{weekday},{begins},{ends}\n"
        for day, weekday in ((1, "Mon"), (2, "Thu"))
        for period, (begins, ends) in enumerate(CLOCKS, 1)
    ]
    return "day,period,weekday,from,to\n" + "".join(rows)


class Weeks(OfficeTest):
    def make_day(self, instance=SMALL, start=SMALL_SOL, name="day", **labels):
        """The folder of a day at which nobody sits."""
        day = Day(self.path(name))
        os.mkdir(day.path)
        facts = {"planners": 1, "program": [PROGRAM], "after": None, "opened": "2026-10-12T08:00"}
        files = {day.facts_file: json.dumps(facts), day.minutes: ""}
        for target, source in ((day.instance, instance), (day.start, start)):
            with open(source) as file:
                files[target] = file.read()
        files.update({day.file(f"{table}.csv"): text for table, text in labels.items()})
        for path, text in files.items():
            with open(path, "w") as file:
                file.write(text)
        return day

    def labelled(self, **labels):
        return self.make_day(**{"labels": LABELS, "times": small_times(), "term": TERM, **labels})

    def show(self, *words):
        """What `office show` prints, in bytes."""
        done = subprocess.run(
            [os.path.join(os.path.dirname(SPRING), "../office"), "show", *words],
            capture_output=True,
            env=self.environment,
        )
        self.assertEqual((done.returncode, done.stderr), (0, b""))
        return done.stdout


class Text(Weeks):
    def test_without_labels(self):
        day = self.make_day()
        found = self.show(day.path, "--teacher", "t1").decode().splitlines()
        self.assertEqual(found[0], "t1: 2 courses")
        lectures = [row for row in lectures_of(SMALL_SOL) if row[0] in ("alg", "top")]
        self.assertEqual(sum(line.startswith("  period ") for line in found), len(lectures))
        for course, room, number, period in lectures:
            heading = found.index(f"day {number + 1}")
            self.assertIn(f"  period {period + 1}  {course}, {room}", found[heading:])

    def test_with_labels(self):
        day = self.labelled()
        found = self.show(day.path, "--teacher", "Ada Byron").decode()
        self.assertIn("Ada Byron: 2 courses\n", found)
        self.assertIn("Linear Algebra; or, \\ a course, ", found)
        self.assertNotRegex(found, "day [0-9]|period")
        for kind, name in (("room", "A"), ("course", "geo"), ("curriculum", "Mathematics")):
            self.assertTrue(self.show(day.path, f"--{kind}", name))

    def test_costs_if_asked(self):
        day = self.labelled()
        self.assertNotIn("without a seat", self.show(day.path, "--course", "top").decode())
        found = self.show(day.path, "--course", "top", "--costs").decode()
        self.assertIn("without a seat", found)
        self.assertIn("whole timetable: cost 20 (capacity 15, days 0,", found)

    def test_what_is_missing(self):
        with open(self.path("start"), "w") as file:
            file.write("alg B 0 0\n")
        day = self.make_day(start=self.path("start"))
        self.assertIn("not placed: 1 lecture of ", self.show(day.path, "--course", "alg").decode())
        found = self.show(day.path, "--teacher", "t2").decode()
        self.assertIn("no lectures\n\nnot placed: ", found)

    def test_refusals(self):
        day = self.make_day()
        for words, status, told in (
            (["--teacher", "t9"], 1, "office: there is no teacher t9\n"),
            (["--html"], 2, "office: whose week is it? one of --course, --room, --teacher, "),
            (["--teacher", "t1", "--room", "A"], 2, "not allowed with argument"),
            (["--teacher", "t1", "--ics"], 1, "office: no calendar without the days of teaching"),
        ):
            found = self.office("show", day.path, *words)
            self.assertEqual(found[:2], (status, ""))
            self.assertIn(told, found[2])


class OfDrafts(Weeks):
    def test_newest_numbered_and_closed(self):
        office = self.open("day", SMALL, "1", "--start", SMALL_SOL)
        answers = self.sit("day", 0, "open\nprice move geo 0 1 B 1 2\nshow course geo\nabandon\n")
        course, room, day, period = answers[2].split()[2:6]
        slots = {(0, 0), (0, 1), (0, 2), (1, 0), (1, 1), (1, 2)}
        edits = [f"move {course} {day} {period} {room} {d} {p}" for d, p in sorted(slots)]
        answers = self.sit("day", 0, "open\n" + "".join(f"{edit}\n" for edit in edits) + "commit\n")
        done = edits[answers.index("done") - 1].split()[-2:]
        where = f"day {int(done[0]) + 1}"
        then = self.show(self.path("day"), "--course", "geo").decode()
        self.assertIn(f"{where}\n", then)
        before = self.show(self.path("day"), "--course", "geo", "--at", "0").decode()
        self.assertIn("day, at its start\n", before)
        self.assertNotEqual(before.split("\n\n")[1:], then.split("\n\n")[1:])
        self.office("close", self.path("day"), "--wait", "0")
        self.assertEqual(office.wait(60), 0)
        self.assertEqual(self.show(self.path("day"), "--course", "geo").decode(), then)


class OnTheScreen(Weeks):
    def test_what_is_seen_is_written(self):
        self.open("day", SMALL, "1", "--start", SMALL_SOL)
        board = Board(self.planning("day", 0))
        board.begin()
        board.work.show(View("teacher", "t2"))
        board.work.drafting.type_line("open")
        board.work.drafting.type_line("move geo 1 2 A 1 1")
        here = os.getcwd()
        os.chdir(self.room)
        self.addCleanup(os.chdir, here)
        board.press("P")
        self.assertIn("day-teacher-t2.html", said(board.planning.notice))
        with open("day-teacher-t2.html", encoding="utf-8") as file:
            page = file.read()
        self.assertIn("<h1>t2</h1>", page)
        self.assertIn("day, at its start, with 1 edit of a draft", page)
        self.assertEqual(page.count("<article "), 2)
        # the move of the draft is seen, period 2 of day 2
        self.assertIn('<article style="grid-area: 3 / 3">', page)
        self.assertEqual(os.stat("day-teacher-t2.html").st_mode & 0o777, 0o600)


class Csv(Weeks):
    def test_a_table(self):
        day = self.labelled()
        found = self.show(day.path, "--curriculum", "q1", "--csv").decode("utf-8-sig")
        rows = list(csv.DictReader(io.StringIO(found, newline="")))
        members = instance_of(SMALL).curricula["q1"]
        wanted = sorted(
            (d + 1, p + 1, course, room)
            for course, room, d, p in lectures_of(SMALL_SOL)
            if course in members
        )
        self.assertEqual(
            [(int(row["day"]), int(row["period"]), row["course"], row["room"]) for row in rows],
            wanted,
        )
        self.assertEqual({row["weekday"] for row in rows} - {"Mon", "Thu"}, set())
        self.assertEqual({(row["from"], row["to"]) for row in rows} - set(CLOCKS), set())
        self.assertIn("Geometrie für Anfänger", {row["course name"] for row in rows})


class Calendars(Weeks):
    def test_the_lines(self):
        found = self.show(self.labelled().path, "--teacher", "t1", "--ics")
        lines = found.split(b"\r\n")
        self.assertNotIn(b"\n", b"".join(lines))
        self.assertTrue(all(len(line) <= 75 for line in lines))
        self.assertEqual((lines[0], lines[-2:]), (b"BEGIN:VCALENDAR", [b"END:VCALENDAR", b""]))
        a = b"\xc3\xa4"
        self.assertEqual(folded("ä" * 50), a * 37 + b"\r\n " + a * 13 + b"\r\n")

    @with_reader
    def test_another_reader(self):
        day = self.labelled()
        found = read_calendar(self.show(day.path, "--teacher", "t1", "--ics"))
        self.assertEqual((found["name"], found["errors"]), ("Ada Byron", []))
        wanted = []
        for course, room, number, period in lectures_of(SMALL_SOL):
            if course not in ("alg", "top"):
                continue
            date = datetime.date(2026, 10, 12 if number == 0 else 15)
            while date <= datetime.date(2027, 2, 5):
                if not datetime.date(2026, 12, 24) <= date <= datetime.date(2027, 1, 6):
                    names = {"alg": "Linear Algebra; or, \\ a course", "A": "Hall 2, left"}
                    when = [f"{date}T{clock.zfill(5)}:00" for clock in CLOCKS[period]]
                    wanted.append((*when, names.get(course, course), names.get(room, room)))
                date += datetime.timedelta(7)
        events = found["events"]
        keys = ("begins", "ends", "summary", "location")
        for event in events:
            event.update(begins=event["begins"][:19], ends=event["ends"][:19])
        read = [tuple(event[key] for key in keys) for event in events]
        self.assertEqual(sorted(read), sorted(wanted))
        self.assertEqual({event["zone"] for event in events}, {"Europe/Berlin"})
        self.assertEqual(len({event["uid"] for event in events}), len(events))
        # the calendar's own clocks are those of the zone: summer time ends on 25 October
        summer = {e["begins"][:10] for e, o in zip(events, found["offsets"]) if o == "2:00:00"}
        wanted = {e["begins"][:10] for e in events if e["begins"] < "2026-10-25"}
        self.assertEqual(summer, wanted)
        self.assertEqual(set(found["offsets"]), {"2:00:00", "1:00:00"})

    @with_reader
    def test_a_moved_lecture_keeps_its_events(self):
        lectures = lectures_of(SMALL_SOL)
        taken = {(day, period) for course, _, day, period in lectures if course == "geo"}
        course, room, day, period = next(row for row in lectures if row[0] == "geo")
        others = [(d, p) for d in range(2) for p in range(3) if (d, p) not in taken]
        uids = []
        for number, start in enumerate([(day, period), *others]):
            rows = [row for row in lectures if row != (course, room, day, period)]
            text = "".join(" ".join(map(str, row)) + "\n" for row in rows if row[0] == "geo")
            with open(self.path("start"), "w") as file:
                file.write(text + f"{course} {room} {start[0]} {start[1]}\n")
            name = f"day{number}"
            labels = {"labels": LABELS, "times": small_times(), "term": TERM}
            made = self.make_day(start=self.path("start"), name=name, **labels)
            done = self.office("show", made.path, "--course", "geo", "--ics")
            if done[0] == 0:
                events = read_calendar(done[1].encode())["events"]
                in_week = [e for e in events if "2026-11-09" <= e["begins"] < "2026-11-14"]
                uids.append({event["uid"] for event in in_week})
        self.assertGreater(len(uids), 1)
        self.assertEqual([found for found in uids if found != uids[0]], [])

    def test_a_lecture_without_a_time(self):
        rows = small_times().replace("1,2,Mon,10:15,11:45", "1,2,Mon,,")
        day = self.labelled(times=rows)
        courses = {c for c, _, d, p in lectures_of(SMALL_SOL) if (d, p) == (0, 1)}
        status, printed, said = self.office("show", day.path, "--course", courses.pop(), "--ics")
        self.assertEqual((status, printed), (1, ""))
        self.assertEqual(said, "office: times.csv has no time for Mon, period 2\n")

    def test_no_such_zone(self):
        # the last one is a file beside those of zones
        for zone in "Europe/Nowhere", "../etc/passwd", "", "Europe", "zone.tab":
            with self.assertRaisesRegex(Refused, "this machine knows no time zone"):
                zone_of(zone)
        day = self.labelled(term=TERM.replace("Europe/Berlin", "Mars/Olympus"))
        found = self.office("show", day.path, "--course", "geo", "--ics")
        self.assertEqual(found, (1, "", "office: this machine knows no time zone Mars/Olympus\n"))

    def test_zones(self):
        new_year, year = datetime.datetime(2026, 1, 1, tzinfo=UTC), datetime.timedelta(365)
        zone = zone_of("America/New_York")
        found = list(changes(zone, new_year, new_year + year))
        self.assertEqual([bool(time.astimezone(zone).dst()) for time in found], [True, False])
        self.assertEqual(
            [time.isoformat() for time in found],
            ["2026-03-08T07:00:00+00:00", "2026-11-01T06:00:00+00:00"],
        )
        self.assertEqual(list(changes(zone_of("Asia/Tokyo"), new_year, new_year + year)), [])
        in_kolkata = new_year.astimezone(zone_of("Asia/Kolkata"))
        self.assertEqual(in_kolkata.utcoffset().seconds, 19800)


class InABrowser(Weeks):
    def page(self, *words, day=None):
        path = self.path("page.html")
        with open(path, "wb") as file:
            file.write(self.show((day or self.labelled()).path, *words, "--html"))
        return path

    def test_no_costs_unless_asked(self):
        day = self.labelled()
        for words, wanted in (([], 0), (["--costs"], 1)):
            with open(self.page("--course", "top", *words, day=day)) as file:
                text = file.read()
            self.assertEqual("without a seat" in text, bool(wanted))
            self.assertEqual("compactness" in text, bool(wanted))

    def test_markup_in_names(self):
        day = self.labelled(labels='kind,code,name\nroom,A,<script>alert(1)</script>"&\n')
        with open(self.page("--room", "A", day=day)) as file:
            text = file.read()
        self.assertNotIn("<script>", text)
        self.assertIn("&lt;script&gt;alert(1)&lt;/script&gt;&quot;&amp;", text)

    @with_browser
    def test_on_a_telephone_and_on_a_desk(self):
        path = self.page("--curriculum", "q1", "--costs")
        narrow, wide = (Pages.measure(path, width) for width in (400, 1400))
        self.assertLessEqual(narrow["wide"], 400)
        self.assertLessEqual(wide["wide"], 1400)
        self.assertEqual((narrow["loaded"], wide["loaded"]), (0, 0))
        self.assertEqual((narrow["lectures"], wide["lectures"]), (4, 4))
        # days below each other have no free slots
        self.assertEqual((narrow["free"], wide["free"]), (0, 2))
        night = Pages.measure(path, 1400, night=True)
        self.assertNotEqual(night["background"], wide["background"])

    @with_browser
    def test_on_one_sheet(self):
        """A full week with long names is on one sheet, also of six days of nine periods."""
        self.assertEqual(Pages.sheets(self.page("--room", "A")), [(842, 595)])
        courses = [f"c{number}" for number in range(54)]
        slots = [(day, period) for day in range(6) for period in range(9)]
        words = ["Name: X Courses: 54 Rooms: 1 Days: 6 Periods_per_day: 9 Curricula: 0"]
        words += ["Constraints: 0 COURSES:", *(f"{name} t{name} 1 1 30" for name in courses)]
        words += ["ROOMS: A 20 CURRICULA: UNAVAILABILITY_CONSTRAINTS: END."]
        instance = self.write("full.ctt", "\n".join(words))
        rows = [f"{name} A {day} {period}\n" for name, (day, period) in zip(courses, slots)]
        start = self.write("full.sol", "".join(rows))
        long = "Numerical Methods for Partial Differential Equations, second part"
        labels = "kind,code,name\n" + "".join(f'course,{name},"{long}"\n' for name in courses)
        labels += "".join(f"teacher,t{name},Prof. Dr. Rosalind Kovalevskaya\n" for name in courses)
        day = self.make_day(instance, start, "full", labels=labels, times=times(6, 9), term=TERM)
        self.assertEqual(Pages.sheets(self.page("--room", "A", day=day)), [(842, 595)])
        path = self.page("--room", "A", "--costs", day=day)
        self.assertEqual(Pages.sheets(path), [(842, 595)])
        # and of the example
        spring = self.make_day(SPRING, SPRING_SOL, "spring")
        self.assertEqual(Pages.sheets(self.page("--room", "r01", day=spring)), [(842, 595)])


if __name__ == "__main__":
    unittest.main()
