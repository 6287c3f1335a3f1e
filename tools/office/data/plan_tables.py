"""The tables of an office, read into an instance, a start and labels."""
from __future__ import annotations

import os
from typing import Optional, Sequence

from office.data import exceptions
from office.data.codes import Codes
from office.data.label_files import SLOTS, TIMES_COLUMNS, take_labels
from office.data.labels import KINDS, PLAN, word_of
from office.data.readings import read_minute, read_weekday
from office.data.sources import Source
from office.data.start_faults import find_faults
from office.data.tables import Column, Row
from office.data.time_zones import fault_of_zone
from office.day.closure import BLOCKABLE as CLOSED, Closure, Scope
from office.day.closures_file import blocked_now
from office.day.instance import Course, Instance
from office.day.lecture import Lecture, Slot
from office.seat.seat import user_name
from office.words.text import counted

CODE = Column("code", ("id",), is_needed=False)
SHORT = Column("short name", ("short",), is_needed=False)
DAY = Column("day", ("weekday",))
PERIOD = Column("period", ("time", "from"), is_needed=False)
COLUMNS = {
    "courses.csv": (
        CODE,
        Column("name", ("course", "title"), is_needed=False),
        SHORT,
        Column("teacher", ("lecturer",)),
        Column("lectures", ("lectures a week",)),
        Column("minimum days", ("min days",), is_needed=False),
        Column("students", ("size",)),
    ),
    "rooms.csv": (
        CODE,
        Column("name", ("room",), is_needed=False),
        SHORT,
        Column("seats", ("capacity",)),
    ),
    "curricula.csv": (
        CODE._replace(fills=True),
        Column("name", ("curriculum",), is_needed=False, fills=True),
        SHORT._replace(fills=True),
        Column("course"),
    ),
    "unavailable.csv": (
        Column("course", is_needed=False, fills=True),
        Column("teacher", ("lecturer",), is_needed=False, fills=True),
        DAY,
        PERIOD,
    ),
    "barred.csv": (Column("course"), Column("room")),
    "blocked.csv": (
        Column("kind"),
        *(Column(kind, is_needed=False) for kind in ("room", "teacher", "course")),
        DAY,
        PERIOD,
        Column("why", ("reason",), is_needed=False),
    ),
    "lectures.csv": (Column("course"), Column("room"), DAY, PERIOD._replace(is_needed=True)),
}
NEEDED = ("courses.csv", "rooms.csv", "curricula.csv")
LIMITS = {"course": 2000, "room": 1000, "curriculum": 20_000}
# how many lectures a course has whose number could not be read, so that nothing follows from it
MANY = 1_000_000


def heads_of(columns: Sequence[Column]) -> str:
    return ", ".join(column.name for column in columns)


class Tables:
    """A folder of tables as it is read; what is wrong is collected. Its lectures are tried at a
    desk of the program, if there is one."""

    def __init__(self, folder: str, program: Optional[list[str]]) -> None:
        self.folder, self.program = folder, program
        self.source = Source(folder)
        self.faults = self.source.faults
        self.labels, slots = take_labels(self.source, self.faults)
        zone = fault_of_zone(self.labels.zone) if self.labels.zone else ""
        if zone:
            self.faults.add("term.csv", self.labels.zone_row, zone)
        self.days = 1 + max((day for day, _ in slots), default=-1)
        self.periods = 1 + max((period for _, period in slots), default=-1)
        self.check_slots(slots)
        self.codes = {kind: Codes(kind, self.labels) for kind in KINDS}
        self.courses: dict[str, Course] = {}
        self.rooms: dict[str, int] = {}
        self.curricula: dict[str, list[str]] = {}
        self.closed: dict[str, set[Slot]] = {}
        self.barred: Optional[set[tuple[str, str]]] = None
        # each with its row
        self.closures: Optional[list[Closure]] = None
        self.start: Optional[list[tuple[Row, Lecture]]] = None

    def read(self) -> Instance:
        """Reads all tables. What is wrong is refused at once."""
        self.take_courses()
        self.take_rooms()
        self.take_curricula()
        self.take_unavailable()
        self.take_barred()
        self.take_closures()
        for codes in self.codes.values():
            codes.find_alike(self.faults)
        for kind, most in LIMITS.items():
            if len(self.codes[kind].names) > most:
                file = "curricula.csv" if kind == "curriculum" else f"{kind}s.csv"
                self.faults.add(file, 0, f"more than {most} are too many")
        plan = [code for kind, code in self.labels.names if kind == PLAN]
        own = os.path.basename(os.path.abspath(self.folder))
        own = own if self.source.is_folder else os.path.splitext(own)[0]
        name = plan[0] if plan else word_of(own, "plan")
        instance = Instance(
            name,
            self.days,
            self.periods,
            self.courses,
            self.rooms,
            self.curricula,
            self.closed,
            self.barred or set(),
        )
        instance.block(self.closures or [])
        self.take_lectures(instance)
        self.check_single_dates()
        self.faults.refuse(f"the tables in {self.folder}")
        return instance

    def rows(self, file: str) -> Optional[list[Row]]:
        rows = self.source.rows(file, COLUMNS[file], self.faults)
        if rows is None and file in NEEDED:
            self.missing(file, f"its columns are {heads_of(COLUMNS[file])}")
        return rows

    def missing(self, file: str, needs: str) -> None:
        there = self.source.there()
        is_there = f"; there are {there}" if there else ""
        self.faults.add(file, 0, f"the file is missing; {needs}{is_there}")

    def check_slots(self, slots: list[Slot]) -> None:
        """The times have a row for each slot of each day, so that they say how many there are."""
        there = set(slots)
        if not list(self.source.places("times.csv")):
            heads = heads_of(TIMES_COLUMNS)
            self.missing("times.csv", f"a row for each slot, with the columns {heads}")
        elif self.days * self.periods > SLOTS:
            self.faults.add("times.csv", 0, f"more than {SLOTS} slots are too many")
        elif "times.csv" not in self.faults.found:
            slots = [(day, period) for day in range(self.days) for period in range(self.periods)]
            lacking = [f"day {d + 1}, period {p + 1}" for d, p in slots if (d, p) not in there]
            if lacking:
                self.faults.add("times.csv", 0, f"no row for {'; '.join(lacking)}")

    # what has codes

    def coded(self, kind: str, file: str) -> list[tuple[Row, str]]:
        """The rows of a table, each with the code of what it is about."""
        codes, rows, found = self.codes[kind], self.rows(file) or [], []
        codes.is_read = bool(rows) or file not in self.faults.found
        codes.written.update(row["code"] for row in rows)
        for row in rows:
            if not row["code"] and not row["name"]:
                row.fault("the name is empty, and the code too")
                continue
            code = codes.take(row, row["name"], row["code"], row["short name"])
            if code is not None:
                found.append((row, code))
        return found

    def once(self, kind: str, file: str) -> list[tuple[Row, str, bool]]:
        """The same where each code has one row, and whether it is the first one."""
        found, first = [], self.codes[kind].rows
        for row, code in self.coded(kind, file):
            found.append((row, code, first[code] == row.number))
            if first[code] != row.number:
                row.fault(f"the {kind} {row['name'] or code} stands in row {first[code]} already")
        return found

    def take_courses(self) -> None:
        rows = self.once("course", "courses.csv")
        for row, code, is_first in rows:
            typed = row.needed("teacher")
            teacher = self.codes["teacher"].take(row, typed) if typed else None
            lectures, students = row.count("lectures"), row.count("students")
            least = row.count("minimum days") if row["minimum days"] else 1
            if not is_first:
                continue
            if lectures is not None and least is not None and least > max(1, lectures):
                days = f"{counted(lectures, 'lecture')} on at least {counted(least, 'day')}"
                self.faults.note(row.file, f"row {row.number}: {days}: no week has that")
            self.courses[code] = Course(
                code,
                # nobody else is called so
                teacher or self.codes["teacher"].make(f"row-{row.number}"),
                MANY if lectures is None else lectures,
                least or 0,
                students or 0,
            )
            self.closed[code] = set()
        has_teachers = not any("teacher" in row.absent for row, _, _ in rows)
        self.codes["teacher"].is_read = self.codes["course"].is_read and has_teachers

    def take_rooms(self) -> None:
        for row, code, is_first in self.once("room", "rooms.csv"):
            seats = row.count("seats") or 0
            if is_first:
                self.rooms[code] = seats

    def take_curricula(self) -> None:
        """A row for each course of a curriculum; one without a course is that of an empty one."""
        for row, code in self.coded("curriculum", "curricula.csv"):
            members = self.curricula.setdefault(code, [])
            course = self.codes["course"].find(row, "course") if row["course"] else None
            if course is not None and course not in members:
                members.append(course)

    # slots

    def day_of(self, row: Row) -> Optional[int]:
        """The day of a cell with its number or its weekday; None is a fault."""
        typed = row.needed("day")
        weekday = read_weekday(typed, row.words)
        named = [day for day, of_week in self.labels.weekdays.items() if of_week == weekday]
        if named:
            return named[0]
        if "times.csv" in self.faults.found or not typed:
            return None
        if typed.isascii() and typed.isdigit() and 1 <= int(typed) <= self.days:
            return int(typed) - 1
        row.fault(f"the day is not 1 to {self.days}, nor a weekday of times.csv: {typed}")
        return None

    def periods_of(self, row: Row, day: Optional[int]) -> list[int]:
        """The periods of a cell with a number or a time, all of the day for an empty cell; none is
        a fault. Where the day is one, the time of any day will do."""
        typed = row["period"]
        if not typed:
            return list(range(self.periods))
        minute = read_minute(typed)
        for (on, period), time in self.labels.times.items():
            if day in (None, on) and time.begins == minute:
                return [period]
        if typed.isascii() and typed.isdigit() and 1 <= int(typed) <= self.periods:
            return [int(typed) - 1]
        if "times.csv" not in self.faults.found:
            cause = f"1 to {self.periods}, nor when one begins by times.csv"
            row.fault(f"the period is not {cause}: {typed}")
        return []

    def slots_of(self, row: Row) -> list[Slot]:
        day = self.day_of(row)
        periods = self.periods_of(row, day)
        return [] if day is None else [(day, period) for period in periods]

    # the other tables

    def take_unavailable(self) -> None:
        """Rows about a course, or about a teacher with all courses that he has."""
        for row in self.rows("unavailable.csv") or []:
            courses: list[str] = []
            if bool(row["course"]) == bool(row["teacher"]):
                row.fault("there is to be a course, or a teacher")
            elif row["course"]:
                course = self.codes["course"].find(row, "course")
                courses = [] if course is None else [course]
            else:
                teacher = self.codes["teacher"].find(row, "teacher")
                courses = [c.name for c in self.courses.values() if c.teacher == teacher]
            slots = self.slots_of(row)
            for course in courses:
                self.closed.get(course, set()).update(slots)

    def take_barred(self) -> None:
        rows = self.rows("barred.csv")
        if rows is None:
            return
        self.barred = set()
        for row in rows:
            course = self.codes["course"].find(row, "course")
            room = self.codes["room"].find(row, "room")
            if course is not None and room is not None:
                self.barred.add((course, room))

    def take_closures(self) -> None:
        """Rows about a room, a teacher or a course that cannot be used on a day, or in a slot."""
        rows = self.rows("blocked.csv")
        if rows is None:
            return
        self.closures = []
        for row in rows:
            kind, name = row.word("kind"), None
            if kind in CLOSED:
                name = self.codes[kind].find(row, kind)
            elif kind:
                row.fault(f"the kind is not room, teacher or course: {kind}")
            for slot in self.slots_of(row)[: None if row["period"] else 1]:
                if name is not None:
                    scope = Scope(kind, name, slot[0], slot[1] if row["period"] else None)
                    self.closures.append(blocked_now(scope, user_name(), None, row["why"]))

    def check_single_dates(self) -> None:
        """A single date is of a course; where it is held instead may be no room of the plan."""
        for one in self.labels.single_dates:
            if not self.codes["course"].names.meant(one.course) and self.codes["course"].is_read:
                self.faults.add(exceptions.FILE, one.row, f"there is no course {one.course}")

    def take_lectures(self, instance: Instance) -> None:
        rows = self.rows("lectures.csv")
        if rows is None:
            return
        self.start = []
        for row in rows:
            course = self.codes["course"].find(row, "course")
            room = self.codes["room"].find(row, "room")
            slots = self.slots_of(row) if row.needed("period") else []
            if course in instance.courses and room in instance.rooms and slots:
                self.start.append((row, Lecture(course, room, *slots[0])))
        if self.start and self.program:
            find_faults(self.program, instance, self.labels, self.start)
