"""What is wrong in tables: each fault by file, row and cause, all at once."""
import os
import unittest

from test_import import Tables

from office.data.importing import import_folder
from office.refused import Refused

# a program that is there, and takes no plan
LIAR = """#!/bin/sh
[ "$1" != --help ] || exit 0
echo 'timedesk: instance I5 3' >&2
exit 1
"""
# for each file a text to be replaced, the text in its place, and what is then wrong
FAULTS = [
    ("courses.csv", "Ada Byron,2,2,120", ",2,2,120", ["courses.csv row 2: the teacher is empty"]),
    (
        "courses.csv",
        "Ada Byron,2,2,120",
        "Ada Byron,two,2.5,-1",
        [
            "courses.csv row 2: lectures: two is no whole number",
            "courses.csv row 2: students: -1 is no whole number",
            "courses.csv row 2: minimum days: 2.5 is no whole number",
        ],
    ),
    (
        "courses.csv",
        "Analysis,",
        "Linear Algebra,",
        [
            "courses.csv row 6: the course Linear Algebra stands in row 2 already",
            "curricula.csv row 3: there is no course Analysis",
            "lectures.csv row 3: there is no course Analysis",
        ],
    ),
    (
        "courses.csv",
        "Teacher",
        "Who",
        ["courses.csv row 1: no column is headed teacher"],
    ),
    ("courses.csv", "Analysis,", '"Analysis,', ["courses.csv row 6: a quote is not closed"]),
    (
        "courses.csv",
        "Analysis,",
        ",",
        [
            "courses.csv row 6: the name is empty, and the code too",
            "curricula.csv row 3: there is no course Analysis",
            "unavailable.csv row 3: there is no teacher Noether",
            "lectures.csv row 3: there is no course Analysis",
        ],
    ),
    ("courses.csv", "Noether,3,3,90", "Noether,3,3,90,7", ["courses.csv row 6: more cells than"]),
    ("rooms.csv", "20", "1000000000", ["rooms.csv row 4: seats: 1000000000 is not 0 to 999999999"]),
    (
        "rooms.csv",
        "Cellar",
        "Hall 2",
        [
            "rooms.csv row 4: the room Hall 2 stands in row 2 already",
            "barred.csv row 2: there is no room Cellar",
        ],
    ),
    (
        "curricula.csv",
        "Analysis",
        "Analisis",
        ["curricula.csv row 3: there is no course Analisis"],
    ),
    (
        "unavailable.csv",
        "Noether,Tue,",
        "Nöther,Fri,8:15",
        [
            "unavailable.csv row 3: there is no teacher Nöther",
            "unavailable.csv row 3: the day is not 1 to 2, nor a weekday of times.csv: Fri",
        ],
    ),
    (
        "unavailable.csv",
        "Mon,08:15:00",
        "Mon,08:30:00",
        ["unavailable.csv row 2: the period is not 1 to 3, nor when one begins by times.csv: 08:3"],
    ),
    (
        "unavailable.csv",
        ",Noether",
        "Analysis,Noether",
        ["unavailable.csv row 3: there is to be a course, or a teacher"],
    ),
    ("barred.csv", "Cellar", "Attic", ["barred.csv row 2: there is no room Attic"]),
    ("times.csv", "2,2,Tue,10:15:00,11:45:00\n", "", ["times.csv: no row for day 2, period 2"]),
    ("term.csv", "2027-02-05", "2/5/2027", ["term.csv row 2: a date is not as 2026-10-12 or"]),
    (
        "lectures.csv",
        "Mon,10:15:00",
        "Mon,08:15:00",
        [
            "lectures.csv row 2: Linear-Algebra is unavailable at Mon 8:15",
        ],
    ),
    (
        "lectures.csv",
        "Linear Algebra,Hall 2",
        "Linear Algebra,Cellar",
        ["lectures.csv row 2: the room Cellar is barred for Linear-Algebra"],
    ),
    (
        "lectures.csv",
        "Analysis,Hall 2,Mon,08:15:00",
        "Analysis,Room 1.01,Mon,10:15:00",
        [
            "lectures.csv row 3: Analysis and Linear-Algebra, in row 2, stand at Mon 10:15, and "
            "share the curriculum Mathematics-first-year",
        ],
    ),
    (
        "lectures.csv",
        '"Geometry, part 1",Room 1.01,2,1',
        '"Geometry, part 1",Hall 2,1,1\nAnalysis,Cellar,Mon,1\n"Topology ""advanced""",Cellar,1,2',
        [
            "lectures.csv row 4: Hall-2 has Analysis at Mon 8:15, in row 3",
            "lectures.csv row 5: Analysis stands at Mon 8:15 in row 3 already",
            "lectures.csv row 6: Topology-advanced and Linear-Algebra, in row 2, stand at "
            "Mon 10:15, and share the teacher Ada-Byron",
        ],
    ),
    (
        "lectures.csv",
        '"Geometry, part 1",Room 1.01,2,1',
        "".join(f'"Geometry, part 1",Room 1.01,2,{period}\n' for period in (1, 2, 3)) + ",,Mon,",
        [
            "lectures.csv row 6: Geometry-part-1 has 2 lectures, not one more",
            "lectures.csv row 7: the course is empty",
            "lectures.csv row 7: the room is empty",
            "lectures.csv row 7: the period is empty",
        ],
    ),
]


class Wrong(Tables):
    def test_each_fault(self):
        for file, old, new, wanted in FAULTS:
            with self.subTest(file=file, new=new):
                self.tables()
                self.change(file, old, new)
                found = self.faults()
                self.assertEqual(len(found), len(wanted), found)
                for line, begins in zip(found, wanted):
                    self.assertTrue(line.startswith(begins), line)

    def test_all_at_once(self):
        self.tables()
        self.change("courses.csv", "Ada Byron,2,2,120", ",2,2,120")
        self.change("rooms.csv", "20", "few")
        self.change("unavailable.csv", "Mon", "Sun")
        self.change("lectures.csv", "Mon", "Sat")
        files = [line.split(" ")[0] for line in self.faults()]
        wanted = ["courses.csv", "rooms.csv", "unavailable.csv", "lectures.csv"]
        self.assertEqual(files, wanted)

    def test_missing_files(self):
        os.mkdir(self.path("college"))
        found = self.faults()
        wanted = ["times", "courses", "rooms", "curricula"]
        self.assertEqual([line.split(".csv: the file is missing")[0] for line in found], wanted)

    def test_nobody_is_unavailable(self):
        self.tables()
        os.remove(self.path("college/unavailable.csv"))
        self.imported()
        self.assertIn("Constraints: 0\n", self.read("plan/instance.ctt"))

    def test_bytes_of_another_encoding(self):
        self.tables()
        with open(self.path("college/rooms.csv"), "wb") as file:
            file.write(b"Room;Seats\r\nHall 2;7\r\n\x81;8\r\nCellar;9\r\n\x8d;3\r\n")
        cause = "neither UTF-8 nor Windows-1252: let the spreadsheet write it as CSV in UTF-8"
        # rooms that nobody could read are not said to be missing
        wanted = [f"rooms.csv row 3: {cause}", f"rooms.csv row 5: {cause}"]
        self.assertEqual(self.faults(), wanted)

    def test_closures(self):
        self.tables()
        with open(self.path("college/blocked.csv"), "w") as file:
            file.write("kind,room,teacher,course,day,period\nroom,Cellar,,,Mon,\n")
            file.write("room,Hall 3,,,Mon,\nhouse,,,,1,\nroom,Cellar,,,Wed,1\n")
            file.write("room,Cellar,,,1,9:99\n")
        self.assertEqual(
            self.faults(),
            [
                "blocked.csv row 3: there is no room Hall 3",
                "blocked.csv row 4: the kind is not room, teacher or course: house",
                "blocked.csv row 5: the day is not 1 to 2, nor a weekday of times.csv: Wed",
                "blocked.csv row 6: the period is not 1 to 3, nor when one begins by times.csv: "
                "9:99",
            ],
        )

    def test_a_start_that_is_blocked(self):
        self.tables()
        with open(self.path("college/blocked.csv"), "w") as file:
            file.write("kind,room,teacher,course,day,period\nroom,Hall 2,,,Mon,8:15\n")
            file.write("course,,,Linear Algebra,1,10:15\n")
        found = self.faults()
        self.assertEqual(len(found), 2, found)
        self.assertIn("Linear-Algebra is unavailable at Mon 10:15", "\n".join(found))
        self.assertIn("the room Hall-2 is blocked at Mon 8:15", "\n".join(found))

    def test_beside_other_faults(self):
        """The start is compared although something else is wrong; a teacher who is not named is
        nobody else."""
        self.tables()
        self.change("courses.csv", "Ada Byron,2,2,120", ",two,2,120")
        self.change("lectures.csv", "Analysis,Hall 2,Mon,08:15:00", "Analysis,Cellar,Mon,10:15:00")
        *others, last = self.faults()
        self.assertEqual(
            others,
            [
                "courses.csv row 2: the teacher is empty",
                "courses.csv row 2: lectures: two is no whole number",
            ],
        )
        self.assertIn("lectures.csv row 3: Analysis and Linear-Algebra, in row 2", last)

    def test_a_program_that_does_not_take_what_is_wrong(self):
        """What is wrong is said all the same, and that the start was not compared."""
        self.tables()
        self.change("rooms.csv", "20", "few")
        os.environ["TIMEDESK"] = self.write("liar", LIAR, 0o755)
        with self.assertRaises(Refused) as caught:
            import_folder(self.path("college"), self.path("plan"), False)
        self.assertEqual(
            caught.exception.reason.split("\n  ")[1:],
            [
                "rooms.csv row 4: seats: few is no whole number",
                "lectures.csv: its rows are compared once all else is right",
            ],
        )

    def test_nothing_is_written_over(self):
        self.tables()
        os.mkdir(self.path("plan"))
        self.imported()
        with self.assertRaisesRegex(Refused, "plan is there already, and is not written over"):
            import_folder(self.path("college"), self.path("plan"), False)
        with self.assertRaisesRegex(Refused, "there is no folder "):
            import_folder(self.path("nowhere"), self.path("x"), False)

    def test_the_program_decides(self):
        self.tables()
        os.environ["TIMEDESK"] = self.write("liar", LIAR, 0o755)
        with self.assertRaises(Refused) as caught:
            import_folder(self.path("college"), self.path("plan"), False)
        self.assertEqual(caught.exception.status, 1)
        self.assertEqual(sorted(os.listdir(self.room)), ["college", "liar"])


if __name__ == "__main__":
    unittest.main()
