"""What is imported has limits, each told in one sentence; what goes out is no formula."""
import csv
import io
import os

from support import OfficeTest

from office.data.decoding import read_cells
from office.data.tables import LONGEST, tidy, write_table

FORMULAS = ("=cmd|' /C calc'!A0", "+1", "-1", "@x", "'=x", "''+y", "=", "-")
PLAIN = ("Analysis", "a=b", "'tis", "x-y", "", "1.Jahr")


class Limits(OfficeTest):
    def setUp(self):
        super().setUp()
        os.mkdir(self.path("tables"))
        self.write("tables/courses.csv", "name,teacher,lectures,students\nx,y,1,5\n")
        self.write("tables/rooms.csv", "name,seats\nr,5\n")
        self.write("tables/curricula.csv", "name,course\nc,x\n")
        self.write("tables/unavailable.csv", "course,teacher,day,period\n")
        self.write("tables/times.csv", "day,period,weekday,from,to\n1,1,,,\n")

    def refused(self, *parts):
        status, _, said = self.office("import", self.path("tables"), "-o", self.path("plan"))
        self.assertNotEqual(status, 0)
        self.assertNotIn("Traceback", said)
        for part in parts:
            self.assertIn(part, said)
        self.assertLess(len(said), 2000)
        self.assertFalse(os.path.exists(self.path("plan")))

    def test_long_number(self):
        self.write("tables/rooms.csv", f"name,seats\nr,{5000 * '7'}\n")
        self.refused("rooms.csv row 2: seats: 777")

    def test_many_rows(self):
        self.write("tables/unavailable.csv", "course,teacher,day,period\n" + 300_000 * "x,,1,1\n")
        self.refused("unavailable.csv: it has more than 100,000 rows")

    def test_endless(self):
        os.remove(self.path("tables/rooms.csv"))
        os.symlink("/dev/zero", self.path("tables/rooms.csv"))
        self.refused("rooms.csv: it is no plain file")

    def test_pipe(self):
        os.remove(self.path("tables/rooms.csv"))
        os.mkfifo(self.path("tables/rooms.csv"))
        self.refused("rooms.csv: it is no plain file")

    def test_large(self):
        with open(self.path("tables/rooms.csv"), "w") as file:
            file.truncate(LONGEST + 1)
        self.refused("rooms.csv: it has more than 16 MiB")


class Formulas(OfficeTest):
    def test_round(self):
        """No cell begins as a formula does, and an import has the same texts again."""
        text = write_table(["name", "why"], [(one, one) for one in (*FORMULAS, *PLAIN)])
        rows = list(csv.reader(io.StringIO(text.decode("utf-8-sig"))))[1:]
        for cells, one in zip(rows, (*FORMULAS, *PLAIN)):
            for cell in cells:
                self.assertFalse(cell.startswith(("=", "+", "-", "@", "\t", "\r")), cell)
            if one in PLAIN:
                self.assertEqual(cells, [one, one])
        found = read_cells(text, tidy, lambda row, cause: self.fail(cause))
        self.assertEqual(found.rows[1:], [[one, one] for one in (*FORMULAS, *PLAIN)])
