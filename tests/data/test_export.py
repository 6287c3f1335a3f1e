"""The tables of a day, which give the same instance and timetable again."""
import json
import os
import random
import sys
import unittest
from contextlib import redirect_stdout
from io import StringIO

from support import HERE, PROGRAM
from test_import import Tables

from office.data.exporting import export_day
from office.data.importing import import_folder
from office.data.label_files import read_labels
from office.day.closure import Scope
from office.day.closures_file import (
    blocked_now,
    blocked_text,
    closures_path,
    closures_text,
    read_closures,
)
from office.day.folder import Day

sys.path.insert(0, os.path.join(HERE, "tests"))
from drawn import PIECES, draw_instance, draw_solution  # noqa: E402
from plain_instance import PlainInstance, file_of_closures, lectures_of, text_of  # noqa: E402
from rules import Instance as Rules  # noqa: E402

DRAWN = 21


def draw_labels(draw, instance):
    """Names for some of what has codes, among them names that others have, and times for some
    slots."""
    rows = ["kind,code,name,short name"]
    kinds = {
        "course": instance.courses,
        "room": instance.rooms,
        "teacher": instance.teachers,
        "curriculum": instance.curricula,
    }
    for kind, codes in kinds.items():
        for code in codes:
            if draw.random() < 0.6:
                other = draw.choice(list(codes))
                name = draw.choice(["Hall 2", "A, B", 'the "x"', f"n {code}", other, ""])
                cells = [kind, code, name, draw.choice(["", "s"])]
                rows.append(",".join('"' + cell.replace('"', '""') + '"' for cell in cells))
    times = ["day,period,weekday,from,to"]
    for day in range(instance.days):
        for period in range(instance.periods):
            if draw.random() < 0.7:
                span = f"{8 + 2 * period}:15,{9 + 2 * period}:45" if draw.random() < 0.7 else ","
                times.append(f"{day + 1},{period + 1},{'Mon Tue Wed Thu Fri'.split()[day]},{span}")
    return "\n".join(rows), "\n".join(times)


class ThereAndBack(Tables):
    def make_day(self, draw, number, pieces):
        """The folder of a day that nobody has opened yet, and its closures."""
        day = Day(self.path(f"day{number}"))
        os.mkdir(day.path)
        text, barred = draw_instance(draw, pieces)
        rules = Rules(text, barred)
        start = b"x"
        while start == b"x" or not rules.report(rules.read_solution(start))[1]["lawful"]:
            start = draw_solution(draw, rules)
        files = {day.instance: text, day.start: start, day.minutes: b""}
        if barred is not None:
            files[day.barred] = barred
        if draw.random() < 0.7:
            labels = draw_labels(draw, PlainInstance(text))
            for file, table in zip(("labels.csv", "times.csv"), labels):
                files[day.file(file)] = table.encode()
        closures = self.draw_closures(draw, PlainInstance(text), start)
        held = closures_text(closures)
        files[closures_path(day)] = held
        if closures:
            files[day.file("blocked")] = blocked_text(closures)
        facts = {"planners": 1, "program": [PROGRAM], "after": None, "opened": "2026-10-12T08:00"}
        facts["closures"] = len(held)
        files[day.facts_file] = json.dumps(facts).encode()
        for path, written in files.items():
            with open(path, "wb") as file:
                file.write(written)
        return day, closures

    @staticmethod
    def draw_closures(draw, instance, start):
        """Closures in which no lecture of a start stands."""
        words = [word.decode() for word in start.split()]
        stands = list(zip(words[::4], words[1::4], map(int, words[2::4]), map(int, words[3::4])))
        named = [("course", name) for name in instance.courses]
        named += [("teacher", name) for name in instance.teachers]
        named += [("room", name) for name in instance.rooms]
        if draw.random() < 0.4 or not named or not instance.slots():
            return []
        scopes = []
        for _ in range(draw.randrange(1, 4)):
            day = draw.choice([None, *range(instance.days)])
            period = draw.choice([None, *range(instance.periods)])
            scope = Scope(*draw.choice(named), day, period)
            if not any(
                day in (None, d)
                and period in (None, p)
                and scope.name == {
                    "course": course,
                    "teacher": instance.courses[course].teacher,
                    "room": room,
                }[scope.kind]
                for course, room, d, p in stands
            ):
                scopes.append(scope)
        whys = ["", "heating", 'the "x", again']
        return [blocked_now(scope, "ben", None, draw.choice(whys)) for scope in scopes]

    def test_drawn_instances(self):
        draw = random.Random(76)
        kinds = list(PIECES)
        for number in range(DRAWN):
            kind = kinds[number % len(kinds)]
            day, closures = self.make_day(draw, number, {kind: PIECES[kind]})
            with self.subTest(number), redirect_stdout(StringIO()):
                tables, plan = self.path(f"tables{number}"), self.path(f"plan{number}")
                export_day(day, None, tables)
                import_folder(tables, plan, False)
                barred = day.barred if day.barred_words() else None
                new = os.path.join(plan, "barred")
                self.assertEqual(os.path.exists(new), barred is not None)
                files = [text_of(day.instance), text_of(barred)]
                made = [text_of(os.path.join(plan, "instance.ctt")), text_of(barred and new)]
                self.check_instance(PlainInstance(*made), PlainInstance(*files))
                # and with what is blocked
                files.append(self.text_of(closures))
                made.append(self.text_of(read_closures(Day(plan))))
                wanted = PlainInstance(*files)
                self.check_instance(PlainInstance(*made), wanted)
                self.assertEqual(
                    sorted(lectures_of(os.path.join(plan, "start.sol"))),
                    sorted(lectures_of(day.start)),
                )
                self.check_labels(day, plan, wanted)

    @staticmethod
    def text_of(closures):
        return file_of_closures([closure.scope for closure in closures])

    def check_instance(self, found, wanted):
        """All is the same, in the same order."""
        self.assertEqual(vars(found), vars(wanted))
        for part in ("courses", "rooms", "curricula", "teachers"):
            self.assertEqual(list(getattr(found, part)), list(getattr(wanted, part)))

    def test_of_a_draft(self):
        """The newest timetable, or that after a draft."""
        self.tables()
        self.imported()
        office = self.open("day", self.path("plan"), "1")
        self.sit("day", 0, "open\ndrop Analysis 0 0\ncommit\n")
        for words, lectures in (([], 2), (["--at", "0"], 3), (["--at", "1"], 2)):
            tables = self.path("_".join(["tables", *words[1:]]))
            status, printed, _ = self.office("export", self.path("day"), *words, "-o", tables)
            self.assertEqual(status, 0)
            with open(os.path.join(tables, "lectures.csv"), encoding="utf-8-sig") as file:
                self.assertEqual(len(file.readlines()), 1 + lectures)
            self.assertIn("term.csv", printed)
        again = self.office("export", self.path("day"), "-o", tables)
        self.assertEqual(again[0], 3)
        self.assertIn("is there already, and is not written over", again[2])
        # names, weekdays and times are written, and not codes and numbers
        with open(os.path.join(tables, "lectures.csv"), encoding="utf-8-sig") as file:
            self.assertIn("Linear Algebra,Hall 2,Mon,10:15:00\n", file.read())
        self.office("close", self.path("day"), "--wait", "0")
        self.assertEqual(office.wait(60), 0)

    def check_labels(self, day, plan, instance):
        """All is said as before."""
        old, new = read_labels(day.path), read_labels(plan)
        for slot in instance.slots():
            self.assertEqual(new.slot(slot), old.slot(slot))
        for course in instance.courses.values():
            for kind, code in ("course", course.name), ("teacher", course.teacher):
                self.assertEqual(new.name(kind, code), old.name(kind, code))
        for room in instance.rooms:
            self.assertEqual(new.name("room", room), old.name("room", room))
            if ("room", room) in old.names and old.names["room", room].short:
                self.assertEqual(new.short("room", room), old.short("room", room))


if __name__ == "__main__":
    unittest.main()
