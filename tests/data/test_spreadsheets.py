"""Spreadsheets as offices have them: workbooks, other encodings, German, merged cells; what is
said of faults; and that an export gives back what was given."""
import csv
import datetime
import json
import os
import re
import shutil
import subprocess
import unittest
from unittest import mock

from plain_instance import lectures_of
from support import PROGRAM
from test_import import INSTANCE, SHEETS, START, Tables

from office.data import packages
from office.data.alike import key_of, meant
from office.data.exporting import Form, export_day
from office.data.importing import import_folder
from office.data.label_files import read_labels
from office.data.short_names import short_names
from office.data.sources import read_workbook
from office.data.workbooks import write_workbook
from office.day.folder import Day
from office.refused import Refused

HAS_READERS = (
    subprocess.run(
        [packages.PYTHON, "-c", "import openpyxl, odf"], stderr=subprocess.DEVNULL
    ).returncode
    == 0
    if os.path.exists(packages.PYTHON)
    else False
)
with_readers = unittest.skipUnless(
    HAS_READERS, "python3-openpyxl or python3-odf is not installed: no workbook was read"
)
GERMAN = {
    "Kurse": "Veranstaltung;Dozent;Termine;Mindesttage;Studierende\n"
    "Linear Algebra;Ada Byron;2;2;120,0\nGeometry, part 1;Müller, Karl;2;1;40\n"
    'Topology "advanced";Ada Byron;1;1;15\nAnalysis;Noether;3;3;90\n',
    "Räume": "Raum;Plätze\nHall 2;150\nRoom 1.01;45\nCellar;20\n",
    "Studiengänge": "Studiengang;Veranstaltung\nMathematics, first year;Linear Algebra\n"
    ';Analysis\nGeometers;Geometry, part 1\n;Topology "advanced"\n',
    "Sperrzeiten": "Veranstaltung;Dozentin;Wochentag;Uhrzeit\nLinear Algebra;;Mo;8.15\n"
    ";Noether;Dienstag;\nGeometry, part 1;;Mo.;10.15 Uhr\n",
    "Gesperrte Räume": "Veranstaltung;Raum\nLinear Algebra;Cellar\n",
    "Zeiten": "Tag;Stunde;Wochentag;Von;Bis\n1;1;Mo;8.15;9.45\n1;2;Mo;10.15;11.45\n"
    "1;3;Mo;14.15;15.45\n2;1;Di;8.15;9.45\n2;2;Di;10.15;11.45\n2;3;Di;14.15;15.45\n",
    "Semester": "Was;Von;Bis;Name\nVorlesungszeit;12.10.2026;05.02.2027;Winter\n"
    "frei;24.12.2026;06.01.2027;\nZeitzone;;;Europe/Berlin\n",
    "Termine": "Veranstaltung;Raum;Tag;Uhrzeit;Bemerkung\nLinear Algebra;Hall 2;Mo;10.15;a\n"
    "Analysis;Hall 2;Montag;08.15;b\nGeometry, part 1;Room 1.01;2;1;c\n",
}
MAKE = """
import datetime, json, sys, openpyxl
wanted = json.load(sys.stdin)
book = openpyxl.Workbook()
book.remove(book.active)
for name, rows in wanted["sheets"].items():
    sheet = book.create_sheet(name)
    for row in rows:
        sheet.append(row)
times = book["Zeiten"]
for row in times.iter_rows(min_row=2):
    for cell in row[3:5]:
        cell.value = datetime.time(*map(int, cell.value.split(".")))
term = book["Semester"]
term["B2"] = datetime.datetime(2026, 10, 12)
term["B2"].number_format = "DD.MM.YYYY"
merged = book["Studiengänge"]
merged.merge_cells("A2:A3")
merged.merge_cells("A4:A5")
title = book["Kurse"]
title.insert_rows(1)
title["A1"] = "Wintersemester 2026"
title.merge_cells("A1:C1")
book.save(wanted["path"])
"""


def rows_of(text):
    return list(csv.reader(text.splitlines(), delimiter=";"))


class Spreadsheets(Tables):
    def german(self, encoding="cp1252", separator=";", ending="csv"):
        shutil.rmtree(self.path("college"), ignore_errors=True)
        os.mkdir(self.path("college"))
        for name, text in GERMAN.items():
            with open(self.path(f"college/{name}.{ending}"), "w", encoding=encoding) as file:
                csv.writer(file, delimiter=separator).writerows(rows_of(text))

    def check_import(self, printed):
        instance = re.sub("Name: .*", "Name: college", self.read("plan/instance.ctt"), 1)
        self.assertEqual(instance, INSTANCE)
        self.assertEqual(self.read("plan/start.sol"), START)
        self.assertEqual(self.read("plan/barred"), "Barred: 1\nLinear-Algebra Cellar\nEND.\n")
        labels = read_labels(self.path("plan"))
        self.assertEqual(labels.slot((0, 2)), "Mon 14:15")
        self.assertEqual(labels.term.first, datetime.date(2026, 10, 12))
        self.assertEqual((labels.zone, len(labels.term.days_off)), ("Europe/Berlin", 1))
        self.assertIn("placed at the start: 3 of 8 lectures\n", printed)
        shutil.rmtree(self.path("plan"))

    def day_of(self, plan="plan", name="day"):
        """The folder of a day opened with a plan, at which nobody sits."""
        day = Day(self.path(name))
        shutil.copytree(self.path(plan), day.path)
        facts = {"planners": 1, "program": [PROGRAM], "after": None, "opened": "2026-10-12T08:00"}
        for path, text in ((day.facts_file, json.dumps(facts)), (day.minutes, "")):
            with open(path, "w") as file:
                file.write(text)
        return day

    def tree(self, name):
        found = {}
        for file in os.listdir(self.path(name)):
            with open(self.path(f"{name}/{file}"), "rb") as text:
                found[file] = text.read()
        return found


class Dialects(Spreadsheets):
    def test_encodings_separators_and_german(self):
        for encoding, separator, ending in (
            ("cp1252", ";", "csv"),
            ("utf-16", "\t", "txt"),
            ("utf-16-le", "\t", "csv"),
            ("utf-8-sig", "\t", "tsv"),
            ("utf-8", ",", "csv"),
        ):
            with self.subTest(encoding=encoding, separator=separator):
                self.german(encoding, separator, ending)
                printed = self.imported()
                guess = f"Kurse.{ending}: not in UTF-8, read as Windows-1252: row 3 has "
                self.assertEqual(guess in printed, encoding == "cp1252")
                self.assertIn("rows 3, 5 have the code and name of the row above", printed)
                self.check_import(printed)

    @with_readers
    def test_workbooks(self):
        self.tables()
        sheets = {
            file[:-4]: list(csv.reader(text.decode().splitlines()))
            for file, text in self.tree("college").items()
        }
        for ending in "xlsx", "ods":
            with self.subTest(ending):
                os.makedirs(self.path("books"), exist_ok=True)
                path = self.path(f"books/office.{ending}")
                write_workbook(path, "", sheets)
                # by itself, and in a folder
                self.check_import(self.imported(f"books/office.{ending}"))
                self.check_import(self.imported("books"))
                os.remove(path)

    @with_readers
    def test_a_german_workbook_with_merged_cells_dates_and_a_title(self):
        path = self.path("Planung.xlsx")
        sheets = {name: rows_of(text) for name, text in GERMAN.items()}
        wanted = json.dumps({"path": path, "sheets": sheets})
        subprocess.run([packages.PYTHON, "-c", MAKE], input=wanted, text=True, check=True)
        printed = self.imported("Planung.xlsx")
        self.assertNotIn("of the row above", printed)
        self.check_import(printed)

    def test_without_a_package(self):
        path = self.write("office.xlsx", "x")
        with mock.patch.object(packages, "PYTHON", "/nowhere"), mock.patch(
            "office.data.sources.sheets_of", side_effect=ImportError(name="openpyxl")
        ):
            with self.assertRaisesRegex(Refused, "the package python3-openpyxl is not installed"):
                read_workbook(path)

    @with_readers
    def test_what_is_no_workbook(self):
        for name in "office.xlsx", "office.ods":
            path = self.write(name, "x")
            with self.assertRaisesRegex(Refused, "it is no workbook"):
                read_workbook(path)

    def test_words_of_an_office(self):
        self.german("utf-8")
        os.rename(self.path("college/Kurse.csv"), self.path("college/Cours.csv"))
        self.write(
            "college/words.csv",
            "what,word,means\ntable,cours,courses\nheading,matière,course\nweekday,lu,Monday\n",
        )
        for file in "Zeiten", "Sperrzeiten", "Termine":
            path = f"college/{file}.csv"
            text = self.read(path).replace("Mo;", "Lu;")
            self.write(path, text)
        text = self.read("college/Cours.csv").replace("Veranstaltung", "Matière")
        self.write("college/Cours.csv", text)
        self.check_import(self.imported())


class Told(Spreadsheets):
    def test_what_lies_there_in_place_of_a_table(self):
        self.tables()
        os.rename(self.path("college/rooms.csv"), self.path("college/halls.csv"))
        there = "there are barred.csv, courses.csv, curricula.csv, halls.csv"
        self.assertIn(there, self.faults()[0])

    def test_equal_faults_are_summed(self):
        self.tables()
        more = "".join(f"Course {number},,1,1,few\n" for number in range(98))
        self.change("courses.csv", "Analysis,", more + "Analysis,")
        self.assertEqual(
            self.faults(),
            [
                "courses.csv rows 6 to 103: the teacher is empty",
                "courses.csv rows 6 to 103: students: few is no whole number",
            ],
        )

    def test_all_of_a_table_without_a_heading(self):
        self.tables()
        self.change("courses.csv", "Teacher", "Who")
        self.change("courses.csv", "2,2,120", "two,2,120")
        self.change("unavailable.csv", "Noether,Tue,", "Noether,Sun,25:00")
        found = self.faults()
        self.assertEqual(len(found), 4, found)
        self.assertIn("no column is headed teacher", found[0])
        self.assertIn("lectures: two is no whole number", found[1])
        self.assertIn("the day is not", found[2])
        self.assertIn("the period is not", found[3])

    def test_near_duplicates(self):
        for file, old, new, kind, name, like in (
            ("courses.csv", ",Noether", ",ada byron", "teacher", "ada byron", "Ada"),
            ("rooms.csv", "Cellar,20", "Cellar,20\nhall  2,9", "room", "hall 2", "Hall 2"),
            ("curricula.csv", "Geometers", "Mathematics first year", "curriculum", "", ""),
        ):
            with self.subTest(file):
                self.tables()
                self.change(file, old, new)
                found = " ".join(self.faults())
                self.assertIn(f"the {kind} {name}", found)
                self.assertIn(f"did you mean {like}", found)
        # a row for each says that both are meant
        self.tables()
        self.change("rooms.csv", "Cellar,20", "Cellar,20\nhall 2,9")
        self.write("college/labels.csv", "kind,code,name\nroom,H,Hall 2\nroom,h,hall 2\n")
        self.imported()

    def test_keys(self):
        for one, other in (
            ("Weiß,Björn", "Weiss, Bjorn"),
            ("1.Jahr", "1. Jahr"),
            ("Linear algebra I", "Linear Algebra I"),
        ):
            self.assertEqual(key_of(one), key_of(other))
        for one, other in ("Room 1.2", "Room 12"), ("C", "C++"), ("Analysis I", "Analysis II"):
            self.assertNotEqual(key_of(one), key_of(other))
        self.assertEqual(meant("Analisis", ["Algebra", "Analysis"]), "Analysis")
        self.assertIsNone(meant("Hall 3", ["Hall 2"]))

    def test_a_wrong_time_zone(self):
        self.tables()
        self.change("term.csv", "Europe/Berlin", "Berlin")
        wanted = "term.csv row 4: this machine knows no time zone Berlin: did you mean "
        self.assertEqual(self.faults(), [f"{wanted}Europe/Berlin?"])

    def test_more_days_than_lectures(self):
        self.tables()
        self.change("courses.csv", "Noether,3,3", "Noether,3,5")
        self.assertIn("courses.csv: row 6: 3 lectures on at least 5 days", self.imported())

    def test_short_names(self):
        names = {"a": "Linear Algebra I", "b": "Linear Algebra", "c": "Hörsaal 2"}
        names.update({"d": "Databases", "e": "Weiß, Björn", "f": "Logic"})
        names["g"] = "Large Amplifiers"
        names["h"] = ""
        wanted = {"a": "LA-I", "b": "LA", "c": "Hörsa-2", "d": "Database"}
        wanted.update({"e": "Weiß", "g": "LA/2"})
        self.assertEqual(short_names(names), wanted)
        self.tables()
        printed = self.imported()
        self.assertIn("labels.csv: Linear Algebra: LA; Geometry, part 1: Gp-1;", printed)
        self.assertEqual(read_labels(self.path("plan")).short("course", "Linear-Algebra"), "LA")


class GivenBack(Spreadsheets):
    def exported(self, day, form=None, number=None):
        shutil.rmtree(self.path("back"), ignore_errors=True)
        with mock.patch("builtins.print"):
            export_day(day, number, self.path("back"), form)
        return self.tree("back")

    def move(self, day):
        with open(day.minutes, "w") as file:
            file.write("entry 0 1\nmove Analysis 0 0 Room-1.01 0 2\ndone\n".replace("1.01", "1-01"))

    def test_each_dialect_byte_for_byte(self):
        for dialect in sorted(os.listdir(SHEETS)):
            with self.subTest(dialect):
                self.tables(dialect)
                self.imported()
                day = self.day_of()
                wanted = self.tree("college")
                found = self.exported(day)
                self.assertEqual({file: found[file] for file in wanted}, wanted)
                self.assertEqual(set(found) - set(wanted), {"labels.csv"})
                self.move(day)
                moved = self.exported(day)
                others = {file for file in wanted if moved[file] != wanted[file]}
                self.assertEqual(others, {"lectures.csv"})
                before, after = (t["lectures.csv"].splitlines() for t in (wanted, moved))
                self.assertEqual(sum(a != b for a, b in zip(before, after)), 1)
                shutil.rmtree(self.path("plan"))
                self.imported("back")
                self.assertIn(["Analysis", "Room-1-01", 0, 2], map(list, self.start_of("plan")))
                shutil.rmtree(day.path)
                shutil.rmtree(self.path("plan"))

    def start_of(self, plan):
        return lectures_of(self.path(f"{plan}/start.sol"))

    def test_german_tables_stay_german(self):
        self.german()
        self.imported()
        day = self.day_of()
        self.move(day)
        rows = self.exported(day)["Termine.csv"].decode("cp1252").splitlines()
        self.assertEqual(rows[0], "Veranstaltung;Raum;Tag;Uhrzeit;Bemerkung")
        self.assertEqual(rows[2], "Analysis;Room 1.01;Montag;14:15;b")

    @with_readers
    def test_workbooks(self):
        self.tables()
        sheets = {
            file[:-4]: list(csv.reader(text.decode().splitlines()))
            for file, text in self.tree("college").items()
        }
        for ending in "xlsx", "ods":
            with self.subTest(ending):
                write_workbook(self.path(f"office.{ending}"), "", sheets)
                self.imported(f"office.{ending}")
                day = self.day_of()
                with open(self.path(f"office.{ending}"), "rb") as file:
                    self.assertEqual(self.exported(day)[f"office.{ending}"], file.read())
                self.move(day)
                self.exported(day)
                found = read_workbook(self.path(f"back/office.{ending}"))
                self.assertEqual(list(found), list(sheets))
                changed = [name for name in sheets if found[name] != read_workbook(
                    self.path(f"office.{ending}"))[name]]
                self.assertEqual(changed, ["lectures"])
                for folder in "plan", "day":
                    shutil.rmtree(self.path(folder))

    @with_readers
    def test_as_a_workbook_and_with_semicolons(self):
        self.tables()
        self.imported()
        day = self.day_of()
        self.assertEqual(set(self.exported(day, Form.XLSX)), {"tables.xlsx"})
        shutil.rmtree(self.path("plan"))
        with mock.patch("builtins.print"):
            import_folder(self.path("back/tables.xlsx"), self.path("plan"), False)
        self.assertEqual(self.read("plan/start.sol"), START)
        found = self.exported(day, Form.SEMICOLON)
        self.assertIn(b"Linear Algebra;Ada Byron;2;2;120", found["courses.csv"])


if __name__ == "__main__":
    unittest.main()
