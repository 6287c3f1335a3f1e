"""Tables as spreadsheets write them: columns by their headings in any order and in several
languages, blank lines, cells that were merged. What is wrong is collected, and said at once."""
from __future__ import annotations

import csv
import io
import os
import re
import stat
from dataclasses import dataclass, field, replace
from typing import NamedTuple, Optional, Sequence

from office.data.decoding import Cells, Dialect
from office.data.readings import read_count
from office.data.vocabulary import Of, Vocabulary, own_words, plain
from office.refused import CONTENT, Refused
from office.words.text import counted, cut, shown

BLANKS = "\t\n\v\f\r "
# the greatest number that a file of the desk has
MOST = 999_999_999


# bytes of a table at most, and how much of a wrong cell is told
LONGEST, TOLD = 16 << 20, 60
# among how many rows the headings are looked for, and how many rows with one fault are told of each
HEADS, EACH = 10, 3
# with what a cell begins that a spreadsheet would take for a formula
FORMULA, GUARDED = re.compile(r"'*[=+\-@\t\r]"), re.compile(r"'+[=+\-@]")


class Column(NamedTuple):
    """A column by its heading, and by other headings that mean the same."""

    name: str
    others: Sequence[str] = ()
    is_needed: bool = True
    # where all such columns of a row are empty, they are as in the row above: of merged cells a
    # spreadsheet writes the first one alone
    fills: bool = False


def spans(rows: Sequence[int]) -> str:
    """Rows in order as they are told: `3, 7 to 12`."""
    parts: list[list[int]] = []
    for row in rows:
        if parts and parts[-1][-1] == row - 1:
            parts[-1][1:] = [row]
        else:
            parts.append([row])
    return ", ".join(" to ".join(map(str, part)) for part in parts)


class Faults:
    """What is wrong in a folder of tables."""

    def __init__(self) -> None:
        # by files; row 0 is the file as a whole
        self.found: dict[str, list[tuple[int, str]]] = {}
        # what is not wrong, but to be said
        self.notes: list[str] = []
        # what people call a table that is no file of its name
        self.called: dict[str, str] = {}

    def add(self, file: str, row: int, cause: str) -> None:
        self.found.setdefault(file, []).append((row, cause))

    def note(self, file: str, cause: str) -> None:
        self.notes.append(shown(f"{self.called.get(file, file)}: {cause}"))

    def lines(self, file: str) -> list[str]:
        """What is wrong in a file in the order of rows; what is wrong with many is said once."""
        rows: dict[str, list[int]] = {}
        for row, cause in sorted(self.found[file], key=lambda fault: fault[0]):
            rows.setdefault(cause, []).append(row)
        told = [
            (row, f" row {row}" if row else "", cause)
            for cause, found in rows.items()
            for row in (found if len(found) <= EACH else [])
        ]
        told += [
            (found[0], f" rows {spans(found)}", cause)
            for cause, found in rows.items()
            if len(found) > EACH
        ]
        name = self.called.get(file, file)
        in_order = sorted(told, key=lambda one: one[0])
        return [shown(f"{name}{where}: {cause}") for _, where, cause in in_order]

    def refuse(self, what: str) -> None:
        """Refuses with all that was found, if anything was."""
        lines = [line for file in self.found for line in self.lines(file)]
        if lines:
            text = "\n  ".join([f"{what}: {counted(len(lines), 'fault')}", *lines])
            raise Refused(text, CONTENT)


@dataclass(frozen=True)
class Row:
    """A row of a table: its number as a spreadsheet shows it, and its cells by their columns."""

    file: str
    number: int
    cells: dict[str, str]
    faults: Faults
    words: Vocabulary = field(default_factory=own_words)
    # columns that the table does not have, which was said once
    absent: frozenset[str] = frozenset()

    def __getitem__(self, column: str) -> str:
        return self.cells[column]

    def fault(self, cause: str) -> None:
        self.faults.add(self.file, self.number, cause)

    def needed(self, column: str) -> str:
        """A cell that must not be empty."""
        if not self[column] and column not in self.absent:
            self.fault(f"the {column} is empty")
        return self[column]

    def word(self, column: str) -> str:
        """A word of a few that are known, in English."""
        typed = self.needed(column)
        return self.words.meaning(Of.WORD, typed) if typed else ""

    def count(self, column: str, least: int = 0, most: int = MOST) -> Optional[int]:
        """The whole number of a cell."""
        text = read_count(self.needed(column))
        if not text:
            return None
        if not (text.isascii() and text.isdigit()):
            self.fault(f"{column}: {cut(text, TOLD)} is no whole number")
        elif len(text) > TOLD or not least <= int(text) <= most:
            self.fault(f"{column}: {cut(text, TOLD)} is not {least} to {most}")
        else:
            return int(text)
        return None


class Table(NamedTuple):
    """The cells of a table, where they stand, and what its headings mean."""

    called: str
    cells: Cells
    # the path of a file, if it is one by itself
    path: Optional[str] = None


def tidied(cell: str) -> str:
    """A cell in one line, without blanks around it."""
    for blank in BLANKS:
        cell = cell.replace(blank, " ")
    return " ".join(filter(None, cell.split(" ")))


def tidy(cell: str) -> str:
    """What is read of a cell."""
    return taken(tidied(cell))


def read_bytes(path: str) -> Optional[bytes]:
    """What a file has; None if it is not there. It may be a link, but to a file that ends."""
    try:
        with open(os.open(path, os.O_RDONLY | os.O_NONBLOCK | os.O_CLOEXEC), "rb") as file:
            if not stat.S_ISREG(os.fstat(file.fileno()).st_mode):
                raise Refused(f"cannot read {path}: it is no plain file")
            found = file.read(LONGEST + 1)
    except FileNotFoundError:
        return None
    except OSError as fault:
        raise Refused(f"cannot read {path}: {fault.strerror}") from None
    if len(found) > LONGEST:
        raise Refused(f"cannot read {path}: it has more than {LONGEST >> 20} MiB")
    return found


def meanings(columns: Sequence[Column], words: Vocabulary, head: str) -> Optional[str]:
    """The column that a heading means."""
    for heading in (plain(head), words.meaning(Of.HEADING, head)):
        for column in columns:
            if heading in map(plain, (column.name, *column.others)):
                return column.name
    return None


def head_row(rows: list[list[str]], columns: Sequence[Column], words: Vocabulary) -> int:
    """The row of the headings: the first one, or one below a title that has all that is needed."""
    needed = {column.name for column in columns if column.is_needed}
    for number, cells in enumerate(rows[:HEADS]):
        if needed <= {meanings(columns, words, cell) for cell in cells if cell}:
            return number
    return 0


def find_columns(
    file: str, heads: list[str], columns: Sequence[Column], words: Vocabulary, faults: Faults
) -> dict[str, int]:
    """Where the columns stand."""
    places: dict[str, int] = {}
    for place, head in enumerate(heads):
        name = meanings(columns, words, head)
        if name is None:
            if head:
                faults.note(file, f"the column {head} is not read")
        elif name in places:
            faults.add(file, 1, f"two columns are the {name}")
        else:
            places[name] = place
    for column in columns:
        if column.is_needed and column.name not in places:
            faults.add(file, 1, f"no column is headed {column.name}")
    return places


def fill_down(file: str, rows: list[Row], columns: Sequence[Column]) -> list[Row]:
    """The rows with what stands above them where merged cells were written once."""
    fills = [column.name for column in columns if column.fills]
    found: list[Row] = []
    filled: list[int] = []
    for row in rows:
        if found and fills and not any(row[name] for name in fills):
            above = {name: found[-1][name] for name in fills}
            row = replace(row, cells={**row.cells, **above})
            filled.append(row.number)
        found.append(row)
    if filled:
        what = " and ".join(fills[:2])
        rows[0].faults.note(file, f"rows {spans(filled)} have the {what} of the row above")
    return found


def rows_of_table(
    file: str, table: Table, columns: Sequence[Column], words: Vocabulary, faults: Faults
) -> list[Row]:
    """The rows of a table but blank ones."""
    if table.called != file:
        faults.called[file] = table.called
    if table.cells.note:
        faults.note(file, table.cells.note)
    rows = table.cells.rows
    top = head_row(rows, columns, words)
    heads = rows[top] if rows else []
    places = find_columns(file, heads, columns, words, faults)
    absent = frozenset(one.name for one in columns if one.name not in places)
    found: list[Row] = []
    for number, cells in enumerate(rows[top + 1 :], top + 2):
        if len(cells) > len(heads) and any(cells[len(heads) :]):
            faults.add(file, number, "more cells than headings")
        if any(cells):
            cells = cells + [""] * (len(heads) - len(cells))
            by_name = {one.name: "" for one in columns}
            by_name.update({name: cells[place] for name, place in places.items()})
            found.append(Row(file, number, by_name, faults, words, absent))
    return fill_down(file, found, columns)


def taken(cell: str) -> str:
    """A cell without the sign in front by which it is no formula."""
    return cell[1:] if GUARDED.match(cell) else cell


def guarded(cell: object) -> object:
    """A cell that no spreadsheet takes for a formula: a text that looks as one has a sign in
    front, which an import takes off again."""
    return f"'{cell}" if isinstance(cell, str) and FORMULA.match(cell) else cell


def write_table(
    heads: Sequence[str], rows: Sequence[Sequence[object]], dialect: Dialect = Dialect()
) -> bytes:
    """A table as spreadsheets read it: with commas, in UTF-8 with a byte order mark, if no other
    dialect is asked for."""
    text = io.StringIO(newline="")
    writer = csv.writer(text, delimiter=dialect.separator, lineterminator=dialect.ending)
    writer.writerow(heads)
    writer.writerows([*map(guarded, row)] for row in rows)
    return encoded_table(text.getvalue(), dialect)


def encoded_table(text: str, dialect: Dialect) -> bytes:
    """The bytes of a table; in UTF-8 where its encoding does not have a name that came in."""
    try:
        return text.encode(dialect.encoding)
    except UnicodeEncodeError:
        return text.encode("utf-8-sig")
