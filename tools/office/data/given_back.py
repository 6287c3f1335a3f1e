"""An export of tables as they were given: what a day has not changed is given back byte for byte,
and in its lectures the rows of those that were not moved stay as they were."""
from __future__ import annotations

import csv
import io
import os
from typing import Mapping, NamedTuple, Optional, Sequence

from office.data.decoding import Dialect, read_cells
from office.data.identities import paired
from office.data.plan_book import Known
from office.data.plan_tables import COLUMNS, Tables
from office.data.sources import Place
from office.data.tables import (
    encoded_table,
    guarded,
    head_row,
    meanings,
    read_bytes,
    taken,
    tidy,
)
from office.data.workbook_cells import Sheets
from office.data.workbooks import workbook_with
from office.day.closure import Closure
from office.day.instance import Instance
from office.day.lecture import Lecture
from office.refused import Refused

Cells = dict[str, str]


class Written(NamedTuple):
    """The rows of a table with its headings, how they are written, and how each row was."""

    rows: list[list[str]]
    dialect: Dialect
    texts: Mapping[tuple[str, ...], str] = {}

    def text(self) -> bytes:
        """The table as a file, in which a row that was there is as it was."""
        dialect, made = self.dialect, io.StringIO(newline="")
        writer = csv.writer(made, delimiter=dialect.separator, lineterminator=dialect.ending)
        made.write(dialect.head)
        for row in self.rows:
            text = self.texts.get(tuple(row), "")
            made.write(text.rstrip("\r\n") + dialect.ending if text else "")
            if not text:
                writer.writerow(map(guarded, row))
        return encoded_table(made.getvalue(), dialect)


LECTURES, BLOCKED = "lectures.csv", "blocked.csv"


class Given:
    """Tables that were given, as far as they are those of an instance."""

    def __init__(self, folder: str) -> None:
        self.tables = Tables(folder, None)
        self.source = self.tables.source
        self.instance: Optional[Instance] = None
        try:
            self.instance = self.tables.read()
        except Refused:
            # made by an earlier program, which took them
            pass

    def is_of(self, instance: Instance) -> bool:
        """Whether the tables give an instance, but for what is blocked."""
        return self.instance is not None and (
            instance.courses,
            instance.rooms,
            instance.curricula,
            {course: slots for course, slots in instance.unavailable.items() if slots},
            instance.barred,
        ) == (
            self.instance.courses,
            self.instance.rooms,
            self.instance.curricula,
            {course: slots for course, slots in self.instance.unavailable.items() if slots},
            self.instance.barred,
        )

    def has_closures(self, closures: list[Closure]) -> bool:
        """Whether the same is blocked as in the tables."""
        own = self.tables.closures or []
        return sorted((one.scope, one.why) for one in own) == sorted(
            (one.scope, one.why) for one in closures
        )

    def files(self) -> dict[str, bytes]:
        """The files that were given."""
        found: dict[str, bytes] = {}
        for path in [*self.source.texts, *self.source.books]:
            data = read_bytes(path)
            if data is not None:
                found[os.path.basename(path)] = data
        return found

    def place(self, file: str) -> Optional[Place]:
        places = list(self.source.places(file))
        return places[0] if places else None

    def raw(self, file: str) -> Optional[Written]:
        """The cells of a table with its headings, as they were typed, and its dialect."""
        place = self.place(file)
        if place is None:
            return None
        if place.sheet is not None:
            sheet = self.source.sheets(place.path)[place.sheet]
            return Written([list(row) for row in sheet], Dialect())
        data = read_bytes(place.path)
        cells = read_cells(data or b"", lambda cell: cell, lambda row, cause: None)
        if cells is None:
            return None
        texts = {tuple(row): text for row, text in zip(cells.rows, cells.texts)}
        return Written(cells.rows, cells.dialect, texts)

    def own_rows(self, text: Optional[bytes], file: str) -> Written:
        """The rows of a table of the day, in the dialect of those that were given."""
        cells = read_cells(text or b"", taken, lambda row, cause: None)
        heads = [[column.name for column in COLUMNS[file]]] if file in COLUMNS else [[]]
        found = self.raw(file)
        dialect = found.dialect if found else self.any_dialect()
        return Written(cells.rows if cells and cells.rows else heads, dialect)

    def with_tables(self, changed: dict[str, Written]) -> dict[str, bytes]:
        """The files that were given, with some tables in place of theirs."""
        files = self.files()
        sheets: dict[str, Sheets] = {}
        for file, written in changed.items():
            rows = written.rows
            place = self.place(file)
            if place is not None and place.sheet is not None:
                if rows != self.source.sheets(place.path)[place.sheet]:
                    sheets.setdefault(place.path, {})[place.sheet] = rows
            elif place is not None or rows[1:]:
                found = self.raw(file)
                name = os.path.basename(place.path) if place is not None else file
                if found is None or rows != found.rows:
                    files[name] = written.text()
        for path, of_path in sheets.items():
            files[os.path.basename(path)] = workbook_with(path, of_path)
        return files

    def lectures(
        self, lectures: Sequence[Lecture], cells_of: dict[Lecture, Cells]
    ) -> Written:
        """The rows of the lectures as they are now: a row stays with its lecture, and has other
        cells where it was moved. `cells_of` has what is written of each."""
        columns = COLUMNS[LECTURES]
        found = self.raw(LECTURES)
        found = found or Written([[column.name for column in columns]], self.any_dialect())
        rows = found.rows
        top = head_row([list(map(tidy, row)) for row in rows], columns, self.source.words)
        places = {
            name: place
            for place, head in enumerate(rows[top])
            for name in [meanings(columns, self.source.words, tidy(head))]
            if name is not None
        }
        now = self.now(lectures)
        kept = [list(row) for row in rows[: top + 1]]
        for number, row in enumerate(rows[top + 1 :], top + 2):
            start = [one for each, one in self.tables.start or [] if each.number == number]
            if not start:
                kept += [] if any(map(tidy, row)) else [list(row)]
            elif start[0] in now:
                lecture = now.pop(start[0])
                same = lecture == start[0]
                cells = {**cells_of[lecture], **self.typed(lecture, rows[top + 1 :], places, top)}
                kept.append(list(row) if same else with_cells(row, cells, places))
        taken = set(self.now(lectures).values())
        new = [one for one in lectures if one not in taken]
        kept += [with_cells([], cells_of[one], places) for one in new]
        return found._replace(rows=kept)

    def typed(
        self, lecture: Lecture, rows: Sequence[Sequence[str]], places: dict[str, int], top: int
    ) -> Cells:
        """How other rows write the day and the period of a lecture, as far as they have them."""
        found: Cells = {}
        for each, one in self.tables.start or []:
            cells = rows[each.number - top - 2]
            for name, is_same in (
                ("day", one.day == lecture.day),
                ("period", one.slot == lecture.slot),
            ):
                if is_same and places[name] < len(cells):
                    found[name] = cells[places[name]]
        return found

    def now(self, lectures: Sequence[Lecture]) -> dict[Lecture, Lecture]:
        """Where the lectures of the tables are now, as far as they are placed."""
        found: dict[Lecture, Lecture] = {}
        start = [one for _, one in self.tables.start or []]
        for course in dict.fromkeys(one.course for one in start):
            known = [Known("", one, True) for one in start if one.course == course]
            of_course = [one for one in lectures if one.course == course]
            found.update((was.lecture, now) for was, now in paired(known, of_course))
        return found

    def any_dialect(self) -> Dialect:
        """How the tables were written, for one that was not there."""
        for file in ("courses.csv", "rooms.csv"):
            found = self.raw(file)
            if found is not None:
                return found.dialect
        return Dialect()


def with_cells(row: Sequence[str], cells: Cells, places: dict[str, int]) -> list[str]:
    """A row with other cells where its columns stand."""
    found = [*row, *[""] * (1 + max(places.values(), default=0) - len(row))]
    for name, place in places.items():
        found[place] = cells.get(name, found[place])
    return found
