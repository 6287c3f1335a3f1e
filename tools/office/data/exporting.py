"""`office export`: the tables of a day as an office imports them, with its timetable."""
from __future__ import annotations

import os
import tempfile
from enum import Enum
from typing import Iterable, Optional

from office.data import exceptions, given_tables, plan_book
from office.data.codes import NO_NAME, Names
from office.data.decoding import read_cells
from office.data.given_back import BLOCKED, LECTURES, Given
from office.data.importing import label_files
from office.data.label_files import LABELS_COLUMNS, TIMES_COLUMNS, read_labels
from office.data.labels import KINDS, PLAN, Labels, clock
from office.data.new_folder import new_folder, write_files
from office.data.normal_tables import times_rows
from office.data.plan_tables import COLUMNS
from office.data.sources import Source
from office.data.tables import read_bytes, taken, write_table
from office.data.workbooks import write_workbook
from office.day.closure import BLOCKABLE as CLOSED
from office.day.folder import Day
from office.day.instance import Instance
from office.day.lecture import Lecture, Slot
from office.past.timetable_at import At, read_at

Rows = Iterable[tuple[object, ...]]


class Form(Enum):
    """In which form tables are exported, if not as they were given."""

    XLSX = "xlsx"
    SEMICOLON = "semicolon"


class Export:
    """The tables of an instance. What has a name that nothing else has is written by it."""

    def __init__(self, instance: Instance, labels: Labels) -> None:
        self.instance = instance
        self.labels = labels
        codes: tuple[Iterable[str], ...] = (
            instance.courses,
            instance.rooms,
            instance.teachers,
            instance.curricula,
        )
        self.names = {
            kind: Names({code: labels.names.get((kind, code), NO_NAME) for code in of_kind})
            for kind, of_kind in zip(KINDS, codes)
        }

    def named(self, kind: str, code: str) -> str:
        name = self.names[kind][code].name
        return name if name and self.names[kind].meant(name) == [code] else code

    def slot(self, slot: Slot) -> tuple[str, str]:
        """The day and the period, by weekday and time if they are known."""
        weekday, time = self.labels.weekdays.get(slot[0]), self.labels.times.get(slot)
        return (
            f"{slot[0] + 1}" if weekday is None else self.labels.day(slot[0]),
            f"{slot[1] + 1}" if time is None else clock(time.begins),
        )

    def coded(self, kind: str, code: str) -> tuple[str, str, str]:
        return (code, *self.names[kind][code])

    def courses(self) -> Rows:
        for course in self.instance.courses.values():
            teacher = self.named("teacher", course.teacher)
            numbers = course.lectures, course.minimum_days, course.students
            yield (*self.coded("course", course.name), teacher, *numbers)

    def rooms(self) -> Rows:
        for room, seats in self.instance.rooms.items():
            yield (*self.coded("room", room), seats)

    def curricula(self) -> Rows:
        for curriculum, members in self.instance.curricula.items():
            for member in map(lambda code: self.named("course", code), members):
                yield (*self.coded("curriculum", curriculum), member)
            if not members:
                yield (*self.coded("curriculum", curriculum), "")

    def unavailable(self) -> Rows:
        for course, slots in self.instance.unavailable.items():
            for slot in sorted(slots):
                yield (self.named("course", course), "", *self.slot(slot))

    def barred(self) -> Rows:
        for course, room in sorted(self.instance.barred):
            yield self.named("course", course), self.named("room", room)

    def closures(self) -> Rows:
        """What is blocked, a row for each day."""
        for closure in self.instance.closures:
            kind, code, day, period = closure.scope
            names = [self.named(kind, code) if kind == column else "" for column in CLOSED]
            for on in range(self.instance.days) if day is None else [day]:
                when = self.slot((on, period or 0))
                yield (kind, *names, when[0], "" if period is None else when[1], closure.why)

    def lecture_rows(self, at: At) -> list[tuple[str, str, str, str]]:
        return [
            (self.named("course", one.course), self.named("room", one.room), *self.slot(one.slot))
            for one in at.lectures
        ]

    def names_of_all(self) -> Rows:
        title = self.labels.title
        yield PLAN, self.instance.name, "" if title == self.instance.name else title, ""
        for kind, names in self.names.items():
            for code in names:
                yield (kind, *self.coded(kind, code))


def export_files(at: At, labels: Labels) -> dict[str, bytes]:
    """The tables of a day by their files."""
    export = Export(at.instance, labels)
    heads = {file: [column.name for column in columns] for file, columns in COLUMNS.items()}
    heads["times.csv"] = [column.name for column in TIMES_COLUMNS]
    heads["labels.csv"] = [column.name for column in LABELS_COLUMNS]
    rows: dict[str, Rows] = {
        "courses.csv": export.courses(),
        "rooms.csv": export.rooms(),
        "curricula.csv": export.curricula(),
        "unavailable.csv": export.unavailable(),
        LECTURES: export.lecture_rows(at),
        "times.csv": times_rows(labels, at.instance.days, at.instance.periods),
        "labels.csv": export.names_of_all(),
    }
    if at.day.barred_words():
        rows["barred.csv"] = export.barred()
    if at.instance.closures:
        rows[BLOCKED] = export.closures()
    return {file: write_table(heads[file], list(found)) for file, found in rows.items()}


def cells_of(export: Export, at: At) -> dict[Lecture, dict[str, str]]:
    """What is written of each lecture."""
    heads = [column.name for column in COLUMNS[LECTURES]]
    return {one: dict(zip(heads, row)) for one, row in zip(at.lectures, export.lecture_rows(at))}


def given_files(at: At, labels: Labels, own: dict[str, bytes]) -> Optional[dict[str, bytes]]:
    """The tables as they were given, with the day's lectures and what is blocked in it; None if
    there are none, or if they are of another instance. `own` are the tables of the day."""
    data = read_bytes(at.day.file(given_tables.FILE))
    if data is None:
        return None
    with tempfile.TemporaryDirectory() as folder:
        if not given_tables.unpack(data, folder):
            return None
        given = Given(folder)
        if not given.is_of(at.instance):
            return None
        export = Export(at.instance, labels)
        changed = {LECTURES: given.lectures(at.lectures, cells_of(export, at))}
        if not given.has_closures(at.instance.closures):
            changed[BLOCKED] = given.own_rows(own.get(BLOCKED), BLOCKED)
        as_imported = label_files(given.tables)
        for file in as_imported:
            text = read_bytes(at.day.file(file))
            if text not in (None, as_imported[file]):
                changed[file] = given.own_rows(text, file)
        found = given.with_tables(changed)
        if given.place("labels.csv") is None:
            names = read_bytes(at.day.file("labels.csv"))
            found.update({} if names is None else {"labels.csv": names})
        return found


def as_one_workbook(files: dict[str, bytes], folder: str) -> None:
    """Writes all tables as sheets of one XLSX."""
    with tempfile.TemporaryDirectory() as scratch:
        write_files(scratch, files)
        source = Source(scratch)
        sheets = {
            sheet: rows for path in source.books for sheet, rows in source.sheets(path).items()
        }
        for path in source.texts:
            cells = read_cells(read_bytes(path) or b"", taken, lambda row, cause: None)
            sheets[os.path.splitext(os.path.basename(path))[0]] = cells.rows if cells else []
        write_workbook(os.path.join(folder, "tables.xlsx"), "", sheets)


def with_separator(text: bytes, separator: str) -> bytes:
    """A table with another sign between its cells."""
    cells = read_cells(text, lambda cell: cell, lambda row, cause: None)
    if cells is None or not cells.rows:
        return text
    dialect = cells.dialect._replace(separator=separator)
    return write_table(cells.rows[0], cells.rows[1:], dialect)


def export_day(
    day: Day, number: Optional[int], folder: str, form: Optional[Form] = None
) -> int:
    """Writes the tables of a day into a new folder."""
    at = read_at(day, number)
    labels = read_labels(day.path)
    own = export_files(at, labels)
    given = given_files(at, labels, own)
    files = own if given is None else given
    extra = [plan_book.FILE] if given is not None else ["term.csv", exceptions.FILE, plan_book.FILE]
    for file in extra:
        text = read_bytes(day.file(file))
        if text is not None:
            files[file] = text
    if form is Form.SEMICOLON:
        tables = {file for file in files if file.endswith(".csv")}
        files.update({file: with_separator(files[file], ";") for file in tables})
    with new_folder(folder) as made:
        if form is Form.XLSX:
            as_one_workbook(files, made)
            files = {plan_book.FILE: files[plan_book.FILE]} if plan_book.FILE in files else {}
        write_files(made, files)
        names = ", ".join(sorted(os.listdir(made)))
    print(f"{at.title()}: {names} in {folder}")
    return 0
