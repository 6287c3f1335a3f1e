"""Tables into an instance and a start, as spreadsheets write them."""
import os
import shutil
import unittest
from contextlib import redirect_stdout
from io import StringIO

from plain_instance import instance_of, lectures_of
from support import HERE, PROGRAM, OfficeTest

from office.data.importing import import_folder
from office.data.label_files import read_labels
from office.day.closure import Scope
from office.day.closures_file import read_closures
from office.day.folder import Day
from office.refused import Refused

SHEETS = os.path.join(HERE, "tests/data/sheets")
COLLEGE = os.path.join(HERE, "examples/college")
DIALECTS = sorted(os.listdir(SHEETS))
INSTANCE = """Name: college
Courses: 4
Rooms: 3
Days: 2
Periods_per_day: 3
Curricula: 2
Constraints: 5
COURSES:
Linear-Algebra Ada-Byron 2 2 120
Geometry-part-1 Müller-Karl 2 1 40
Topology-advanced Ada-Byron 1 1 15
Analysis Noether 3 3 90
ROOMS:
Hall-2 150
Room-1-01 45
Cellar 20
CURRICULA:
Mathematics-first-year 2 Linear-Algebra Analysis
Geometers 2 Geometry-part-1 Topology-advanced
UNAVAILABILITY_CONSTRAINTS:
Linear-Algebra 0 0
Geometry-part-1 0 1
Analysis 1 0
Analysis 1 1
Analysis 1 2
END.
"""
START = """Linear-Algebra Hall-2 0 1
Analysis Hall-2 0 0
Geometry-part-1 Room-1-01 1 0
"""


class Tables(OfficeTest):
    def setUp(self):
        super().setUp()
        os.environ["TIMEDESK"] = PROGRAM

    def tables(self, source="libreoffice", name="college"):
        """A copy of a folder of tables."""
        shutil.rmtree(self.path(name), ignore_errors=True)
        return shutil.copytree(os.path.join(SHEETS, source), self.path(name))

    def change(self, file, old, new):
        path = os.path.join(self.path("college"), file)
        with open(path, encoding="utf-8") as text:
            found = text.read()
        self.assertIn(old, found)
        with open(path, "w", encoding="utf-8") as text:
            text.write(found.replace(old, new, 1))

    def read(self, name):
        with open(self.path(name), "rb") as file:
            return file.read().decode()

    def imported(self, name="college", to="plan"):
        printed = StringIO()
        with redirect_stdout(printed):
            self.assertEqual(import_folder(self.path(name), self.path(to), False), 0)
        return printed.getvalue()

    def faults(self):
        """What an import is refused for; nothing is written."""
        with self.assertRaises(Refused) as caught:
            import_folder(self.path("college"), self.path("plan"), False)
        self.assertEqual(caught.exception.status, 1)
        first, *rest = caught.exception.reason.split("\n  ")
        count = f"{len(rest)} fault" + "s" * (len(rest) != 1)
        self.assertEqual(first, f"the tables in {self.path('college')}: {count}")
        self.assertEqual(sorted(os.listdir(self.room)), ["college"])
        return rest


class Dialects(Tables):
    def test_each_dialect(self):
        self.assertEqual(len(DIALECTS), 5)
        for dialect in DIALECTS:
            with self.subTest(dialect):
                self.tables(dialect)
                printed = self.imported()
                self.assertEqual(self.read("plan/instance.ctt"), INSTANCE)
                self.assertEqual(self.read("plan/start.sol"), START)
                barred = "Barred: 1\nLinear-Algebra Cellar\nEND.\n"
                self.assertEqual(self.read("plan/barred"), barred)
                labels = read_labels(self.path("plan"))
                self.assertEqual(labels.slot((0, 2)), "Mon 14:15")
                found = labels.course("Topology-advanced"), labels.teacher("Müller-Karl")
                self.assertEqual(found[0], 'Topology "advanced"')
                self.assertEqual(found[1], "Müller, Karl")
                self.assertEqual(labels.term.first.isoformat(), "2026-10-12")
                self.assertIn(
                    "4 courses with 8 lectures, 3 teachers, 3 rooms, 2 curricula, "
                    "2 days of 3 periods\n",
                    printed,
                )
                self.assertIn("placed at the start: 3 of 8 lectures\n", printed)
                unread = printed.count("the column Remarks is not read")
                self.assertEqual(unread, 8 if dialect == "excel-english" else 0)
                shutil.rmtree(self.path("plan"))

    def test_the_example(self):
        shutil.copytree(COLLEGE, self.path("college"))
        self.imported()
        self.assertEqual(self.read("plan/instance.ctt"), INSTANCE)

    def test_from_spreadsheets_to_an_open_day(self):
        self.tables()
        for file in ("term", "barred", "lectures"):
            os.remove(self.path(f"college/{file}.csv"))
        status, printed, said = self.office("import", self.path("college"), "-o", self.path("plan"))
        self.assertEqual((status, said), (0, ""))
        last = f"to open a day: office open DAY {self.path('plan')} PLANNERS"
        self.assertEqual(printed.splitlines()[-1], last)
        office = self.start("open", self.path("day"), self.path("plan"), "1")
        self.assertIn("open, seats 0 to 0", office.stderr.readline())
        answers = self.sit("day", 0, "open\nplace Analysis Hall-2 0 0\n")
        self.assertEqual(answers, ["opened", "done"])
        labels = read_labels(self.path("day"))
        self.assertEqual(labels.slot((0, 1)), "Mon 10:15")

    def test_a_day_has_all_that_was_imported(self):
        self.tables()
        self.imported()
        office = self.open("day", self.path("plan"), "1")
        lines = "open\nplace Linear-Algebra Cellar 0 2\nshow course Analysis\n"
        answers = self.sit("day", 0, lines)
        self.assertEqual(answers[1:], ["refused barred", "lectures 1 Analysis Hall-2 0 0"])
        self.office("close", self.path("day"), "--wait", "0")
        self.assertEqual(office.wait(60), 0)
        # a changed plan for the next day: what it has no place for is set aside
        self.change("rooms.csv", "Hall 2,150", "Hall 3,150")
        self.change("lectures.csv", "Linear Algebra,Hall 2", "Linear Algebra,Hall 3")
        self.change("lectures.csv", "Analysis,Hall 2", "Analysis,Hall 3")
        self.imported(to="changed")
        words = "--after", self.path("day"), "--instance", self.path("changed")
        next_day = self.start("open", self.path("next"), *words)
        said = [next_day.stderr.readline() for _ in range(4)]
        self.assertIn("office: 2 lectures set aside", said[2])
        self.assertIn("open, seats 0 to 0", said[3])
        self.assertEqual(read_labels(self.path("next")).room("Hall-3"), "Hall 3")


class Closures(Tables):
    def test_what_is_blocked(self):
        """Closures of a table are those of a day, with their reasons."""
        self.tables()
        with open(self.path("college/blocked.csv"), "w") as file:
            file.write("Kind,Room,Teacher,Course,Day,Period,Reason\n")
            file.write('room,Cellar,,,Tue,,"heating, mould"\nteacher,,"Müller, Karl",,1,3,\n')
        self.imported()
        self.assertNotIn("blocked", os.listdir(self.path("plan")))
        office = self.open("day", self.path("plan"), "1")
        day = Day(self.path("day"))
        told = read_closures(day)
        scopes = [Scope("room", "Cellar", 1), Scope("teacher", "Müller-Karl", 0, 2)]
        self.assertEqual([one.scope for one in told], scopes)
        self.assertEqual([one.why for one in told], ["heating, mould", ""])
        printed = self.office("blocks", day.path)[1]
        self.assertIn("Cellar is blocked on Tue: heating, mould (", printed)
        self.assertIn("Müller, Karl is blocked on Mon 14:15 (", printed)
        lines = "show price place Topology-advanced Cellar 1 0\n"
        self.assertEqual(self.sit("day", 0, lines), ["refused blocked"])
        # what is said by a command goes into the tables, too
        self.office("block", day.path, "course", "Analysis", "*", "8:15")
        tables = self.path("tables")
        self.assertEqual(self.office("export", day.path, "-o", tables)[0], 0)
        with open(os.path.join(tables, "blocked.csv"), encoding="utf-8-sig") as file:
            self.assertEqual(
                file.read().splitlines(),
                [
                    "kind,room,teacher,course,day,period,why",
                    'room,Cellar,,,Tue,,"heating, mould"',
                    'teacher,,"Müller, Karl",,Mon,14:15,',
                    "course,,,Analysis,Mon,8:15,",
                    "course,,,Analysis,Tue,8:15,",
                ],
            )
        self.office("close", day.path, "--wait", "0")
        self.assertEqual(office.wait(60), 0)

    def test_a_plan_for_the_next_day(self):
        """What was blocked by a command holds beside what a new plan has."""
        self.tables()
        self.imported()
        office = self.open("day", self.path("plan"), "1")
        self.office("block", self.path("day"), "room", "Hall 2", "tue")
        self.office("close", self.path("day"), "--wait", "0")
        office.wait(60)
        with open(self.path("college/blocked.csv"), "w") as file:
            file.write("Kind,Room,Teacher,Course,Day,Period\nroom,Cellar,,,Tue,\n")
        self.imported(to="changed")
        words = "--after", self.path("day"), "--instance", self.path("changed")
        process = self.start("open", self.path("next"), *words)
        while "open, seats" not in process.stderr.readline():
            pass
        scopes = [one.scope for one in read_closures(Day(self.path("next")))]
        self.assertEqual(scopes, [Scope("room", "Hall-2", 1), Scope("room", "Cellar", 1)])


class Codes(Tables):
    def test_names_keep_their_codes(self):
        self.tables()
        self.imported()
        # the labels of an import go back into the tables: codes stay, whatever else is new
        shutil.copy(self.path("plan/labels.csv"), self.path("college/labels.csv"))
        # both are meant, though they are alike
        with open(self.path("college/labels.csv"), "a") as file:
            file.write("course,Linear.Algebra,,\n")
        new = "Linear.Algebra,Ada Byron,1,1,3\nLinear Algebra,"
        self.change("courses.csv", "Linear Algebra,", new)
        self.imported(to="next")
        courses = list(instance_of(self.path("next/instance.ctt")).courses)
        self.assertEqual(courses[:2], ["Linear.Algebra", "Linear-Algebra"])
        self.change("courses.csv", "Linear.Algebra,", "Linear Algebra +,")
        self.imported(to="last")
        courses = list(instance_of(self.path("last/instance.ctt")).courses)
        self.assertEqual(courses[:2], ["Linear-Algebra-2", "Linear-Algebra"])

    def test_codes_are_written_or_named(self):
        self.tables()
        self.change("rooms.csv", "Room,Seats\nHall 2,", "Room,Seats,Code,Short\nHall 2,")
        self.change("rooms.csv", "150", "150,h2,H2")
        self.change("rooms.csv", "Cellar,20", "Cellar,20,h3")
        self.change("lectures.csv", "Linear Algebra,Hall 2", "Linear Algebra,h2")
        self.imported()
        instance = instance_of(self.path("plan/instance.ctt"))
        self.assertEqual(list(instance.rooms), ["h2", "Room-1-01", "h3"])
        self.assertEqual(lectures_of(self.path("plan/start.sol"))[0][1], "h2")
        labels = read_labels(self.path("plan"))
        self.assertEqual((labels.room("h2"), labels.short("room", "h2")), ("Hall 2", "H2"))

    def test_an_empty_curriculum(self):
        self.tables()
        self.change("curricula.csv", "Mathematics, first", '",\nNobody,\n"Mathematics, first')
        self.change("curricula.csv", '"",\n', "")
        self.imported()
        curricula = instance_of(self.path("plan/instance.ctt")).curricula
        self.assertEqual(list(curricula.items())[0], ("Nobody", []))


if __name__ == "__main__":
    unittest.main()
