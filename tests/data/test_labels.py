"""Names and times: what is said of slots and codes, and labels that are wrong."""
import datetime
import os
import unittest

from support import SMALL, OfficeTest

from office.data.label_files import read_date, read_labels, read_minute
from office.data.labels import Labels
from office.refused import Refused

NAMES = """kind,code,name,short name
course,alg,Linear Algebra,LinAlg
room,A,Hall 2,
teacher,t1,Ada Byron,
curriculum,q1,"Mathematics, first year",Maths 1
instance,Small,Winter term,
"""
TIMES = """day,period,weekday,from,to
1,1,Mon,8:15,9:45
1,2,Mon,10:15,11:45
2,1,Tuesday,8:15,9:45
2,2,Tuesday,10:30,12:00
2,3,Tuesday,,
"""
TERM = """what,from,to,name
teaching,2026-10-12,2027-02-05,Winter term
off,24.12.2026,6.1.2027,Christmas
off,2026-11-01,,All Saints
zone,,,Europe/Berlin
"""


class Folder(OfficeTest):
    def labels(self, **files):
        """A folder of labels."""
        folder = self.path("labels")
        os.makedirs(folder, exist_ok=True)
        for name, text in files.items():
            with open(os.path.join(folder, f"{name}.csv"), "w", newline="") as file:
                file.write(text)
        return folder


class Said(Folder):
    def test_nothing_is_known(self):
        labels = Labels()
        self.assertEqual(labels.slot((4, 1)), "day 5, period 2")
        self.assertEqual((labels.day(0), labels.period(0)), ("day 1", "1"))
        self.assertEqual(labels.course("c0109"), "c0109")
        self.assertEqual(labels.short("room", "r04"), "r04")
        self.assertEqual(labels.span((4, 1)), "")

    def test_names_and_times(self):
        labels = read_labels(self.labels(labels=NAMES, times=TIMES, term=TERM))
        self.assertEqual(labels.slot((0, 1)), "Mon 10:15")
        self.assertEqual(labels.slot((1, 1)), "Tue 10:30")
        self.assertEqual(labels.slot((1, 2)), "Tue, period 3")
        self.assertEqual(labels.slot((4, 1)), "day 5, period 2")
        self.assertEqual(labels.span((0, 0)), "8:15–9:45")
        self.assertEqual([labels.period(period) for period in range(3)], ["8:15", "2", "3"])
        self.assertEqual(labels.course("alg"), "Linear Algebra")
        self.assertEqual(labels.course("geo"), "geo")
        self.assertEqual(labels.room("A"), "Hall 2")
        self.assertEqual(labels.teacher("t1"), "Ada Byron")
        self.assertEqual(labels.curriculum("q1"), "Mathematics, first year")
        self.assertEqual(labels.short("course", "alg"), "LinAlg")
        self.assertEqual(labels.short("room", "A"), "Hall 2")
        self.assertEqual(labels.title, "Winter term")
        self.assertEqual(labels.zone, "Europe/Berlin")
        off = [day for day in range(1, 32) if labels.term.is_off(datetime.date(2026, 12, day))]
        self.assertEqual(off, list(range(24, 32)))
        self.assertTrue(labels.term.is_off(datetime.date(2026, 11, 1)))

    def test_a_name_is_found(self):
        names = NAMES + "course,geo,Linear Algebra,\n"
        labels = read_labels(self.labels(labels=names))
        # the code is said where two are called alike
        self.assertEqual(labels.course("alg"), "Linear Algebra (alg)")
        codes = ["alg", "geo", "top"]
        self.assertEqual(labels.find("course", "top", codes), "top")
        self.assertEqual(labels.find("course", "LinAlg", codes), "alg")
        self.assertEqual(labels.find("teacher", "Ada Byron", ["t0", "t1"]), "t1")
        with self.assertRaisesRegex(Refused, "^several are called Linear Algebra: alg, geo$"):
            labels.find("course", "Linear Algebra", codes)
        with self.assertRaisesRegex(Refused, "^there is no room Hall 3$"):
            labels.find("room", "Hall 3", ["A", "B"])

    def test_clocks_and_dates(self):
        clocks = {"8:15": 495, "08:15:00": 495, "12:00 AM": 0, "1:30 pm": 810, "23:59": 1439}
        clocks.update({"8.15": 495, "08.15": 495, "8.15 Uhr": 495, "8h15": 495})
        self.assertEqual({text: read_minute(text) for text in clocks}, clocks)
        for text in "24:00", "8:60", "13:00 PM", "8,15", "8", "8:15:30", "8:15 x", "٨:15":
            self.assertIsNone(read_minute(text), text)
        date = datetime.date(2026, 2, 1)
        self.assertEqual([read_date("2026-02-01"), read_date("1.2.2026")], [date, date])
        for text in "1/2/2026", "2026-02-30", "26-02-01", "1.2.26", "":
            self.assertIsNone(read_date(text), text)


FAULTS = {
    "labels": (
        "kind,code,name\nlecturer,t1,x\ncourse,,x\ncourse,a b,x\n,,\nroom,A,x\nroom,A,y\n"
        "instance,S,x\ninstance,T,y\nroom,B,x,,y\n",
        [
            "row 2: the kind is not course, room, teacher, curriculum or instance: lecturer",
            "row 3: the code is empty",
            "row 4: the code has a blank: a b",
            "row 7: the room A has a label already",
            "row 9: there is an instance already",
            "row 10: more cells than headings",
        ],
    ),
    "times": (
        "day,period,weekday,from,to\n0,1,Mon,,\nx,,,,\n1,1,Moon,8:15,9:45\n1,2,Mon,8:75,9:45\n"
        "1,3,Tue,9:45,8:15\n1,3,,,\n2,1,Mon,8:15,\n3,1,Wed,8:15,9:45\n3,2,Wed,9:30,11:00\n",
        [
            "row 2: day: 0 is not 1 to 2000",
            "row 3: day: x is no whole number",
            "row 3: the period is empty",
            "row 4: the weekday is not Mon to Sun: Moon",
            "row 5: from: 8:75 is no time as 10:15",
            "row 6: day 1 was Mon before, and is Tue here",
            "row 6: it ends at 8:15, and does not begin before that",
            "row 7: day 1, period 3 stands in row 6 already",
            "row 8: two days are Mon",
            "row 8: the to is empty",
            "row 10: it begins before the period before it ends",
        ],
    ),
    "term": (
        "what,from,to,name\nteaching,10/12/2026,,\nteaching,2026-10-12,2026-10-11,\n"
        "off,,2026-10-11,\nteaching,2026-10-12,2027-10-11,\nzone,,,\nholiday,2026-10-11,,\n",
        [
            "row 2: a date is not as 2026-10-12 or 12.10.2026",
            "row 3: it ends before it begins",
            "row 4: the from is empty",
            "row 5: teaching has a row already",
            "row 6: the name is empty",
            "row 7: this is not teaching, off or zone: holiday",
        ],
    ),
}


class Wrong(Folder):
    def faults(self, **files):
        with self.assertRaises(Refused) as caught:
            read_labels(self.labels(**files))
        self.assertEqual(caught.exception.status, 1)
        return caught.exception.reason.split("\n  ")

    def test_each_fault_is_said(self):
        for name, (text, wanted) in FAULTS.items():
            first, *rest = self.faults(**{name: text})
            self.assertEqual(rest, [f"{name}.csv {fault}" for fault in wanted])
            self.assertTrue(first.endswith(f"labels: {len(wanted)} faults"), first)
            os.remove(os.path.join(self.path("labels"), f"{name}.csv"))

    def test_all_at_once(self):
        files = {name: text for name, (text, _) in FAULTS.items()}
        wanted = [f"{name}.csv {one}" for name, (_, each) in FAULTS.items() for one in each]
        self.assertEqual(self.faults(**files)[1:], wanted)

    def test_columns(self):
        self.assertEqual(
            self.faults(labels="kind,kind,name\n", times="", term="x"),
            [
                f"the labels in {self.path('labels')}: 6 faults",
                "labels.csv row 1: two columns are the kind",
                "labels.csv row 1: no column is headed code",
                "times.csv row 1: no column is headed day",
                "times.csv row 1: no column is headed period",
                "term.csv row 1: no column is headed what",
                "term.csv row 1: no column is headed from",
            ],
        )


class OfADay(Folder):
    def test_a_day_takes_them_along(self):
        folder = self.labels(labels=NAMES, times=TIMES, term=TERM)
        office = self.open("monday", SMALL, "1", "--labels", folder)
        self.assertEqual(read_labels(self.path("monday")).slot((0, 1)), "Mon 10:15")
        self.office("close", self.path("monday"), "--wait", "0")
        self.assertEqual(office.wait(60), 0)
        # they are kept the next day, and others take their place if that is asked for
        self.open("tuesday", "--after", self.path("monday"))
        kept = read_labels(self.path("tuesday"))
        self.assertEqual(kept.slot((0, 1)), "Mon 10:15")
        self.assertEqual(kept.course("alg"), "Linear Algebra")
        self.labels(times="day,period,weekday,from,to\n1,2,Wed,9:00,10:00\n")
        self.open("wednesday", "--after", self.path("monday"), "--labels", folder)
        self.assertEqual(read_labels(self.path("wednesday")).slot((0, 1)), "Wed 9:00")

    def test_without_labels(self):
        office = self.open("monday", SMALL, "1")
        self.assertEqual(read_labels(self.path("monday")).slot((0, 1)), "day 1, period 2")
        self.office("close", self.path("monday"), "--wait", "0")
        self.assertEqual(office.wait(60), 0)
        self.open("tuesday", "--after", self.path("monday"))

    def test_bad_labels_are_refused(self):
        folder = self.labels(times="day,period,weekday\n0,1,Mon\n")
        found = self.office("open", self.path("day"), SMALL, "1", "--labels", folder)
        fault = "times.csv row 2: day: 0 is not 1 to 2000"
        self.assertEqual(found, (1, "", f"office: the labels in {folder}: 1 fault\n  {fault}\n"))
        self.assertFalse(os.path.exists(self.path("day")))
        found = self.office("open", self.path("day"), SMALL, "1", "--labels", self.room)
        self.assertEqual(found[0], 3)
        self.assertIn("has none of labels.csv, times.csv, term.csv", found[2])
        self.assertFalse(os.path.exists(self.path("day")))


if __name__ == "__main__":
    unittest.main()
