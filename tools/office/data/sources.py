"""Where tables stand: a folder with a file for each, or with a workbook, or a workbook by itself.
Tables, headings and words may be in German, or in a language of which `words.csv` has the words."""
from __future__ import annotations

import json
import os
from typing import Iterator, NamedTuple, Optional, Sequence

from office.data.decoding import Cells, Dialect, read_cells
from office.data.packages import run_with_packages
from office.data.tables import Column, Faults, Row, Table, read_bytes, rows_of_table, tidy
from office.data.vocabulary import FILE as WORDS, Of, Vocabulary, own_words
from office.data.workbook_cells import Damaged, Sheets, lacking, sheets_of
from office.refused import CONTENT, Refused

TEXTS, WORKBOOKS = (".csv", ".tsv", ".txt"), (".xlsx", ".xlsm", ".ods")
# what is told of a folder in which a table is missing
TOLD = 8

WORDS_COLUMNS = (Column("what", ("kind",)), Column("word"), Column("means", ("meaning",)))


class Place(NamedTuple):
    """Where a table stands: a file, or a sheet of a workbook."""

    path: str
    sheet: Optional[str] = None

    def called(self) -> str:
        name = os.path.basename(self.path)
        return name if self.sheet is None else f"{name}, {self.sheet}"


def read_workbook(path: str) -> Sheets:
    """The sheets of a workbook, by this Python or by Debian's."""
    if read_bytes(path) is None:
        raise Refused(f"there is no {path}")
    try:
        return sheets_of(path)
    except ImportError as fault:
        done = run_with_packages("workbook_cells.py", [os.path.abspath(path)])
        if done is None:
            package = lacking(fault) or fault.name
            raise Refused(f"cannot read {path}: the package {package} is not installed") from None
        if done.returncode != 0:
            raise Refused(f"cannot read {path}: {done.stderr.strip()}", CONTENT) from None
        return dict(json.loads(done.stdout))
    except Damaged as fault:
        raise Refused(f"cannot read {path}: {fault}", CONTENT) from None


class Source:
    """The tables of a folder or of a workbook."""

    def __init__(self, path: str) -> None:
        self.path = path
        self.words = own_words()
        self.workbooks: dict[str, Sheets] = {}
        self.is_folder = os.path.isdir(path)
        names = sorted(os.listdir(path)) if self.is_folder else [""]
        files = [os.path.join(path, name) if name else path for name in names]
        endings = [(file, os.path.splitext(file)[1].lower()) for file in files]
        hidden = (".", "~")
        self.texts = [file for file, ending in endings if ending in TEXTS]
        self.books = [
            file
            for file, ending in endings
            if ending in WORKBOOKS and not os.path.basename(file).startswith(hidden)
        ]
        # an office's own words are read at once, with what is wrong in them
        self.faults = Faults()
        self.has_words = os.path.join(path, WORDS) in self.texts
        if self.has_words:
            self.words = self.with_words()

    def with_words(self) -> Vocabulary:
        found = own_words().copy()
        for row in self.rows(WORDS, WORDS_COLUMNS, self.faults) or []:
            kinds = {of.value: of for of in Of}
            of = kinds.get(row["what"].lower())
            if of is None:
                row.fault(f"this is not {', '.join(kinds)}: {row['what']}")
            elif row.needed("word") and row.needed("means"):
                weekday = found.weekday(row["means"]) if of is Of.WEEKDAY else None
                found.add(of, row["word"], row["means"] if weekday is None else f"{weekday + 1}")
        return found

    def sheets(self, path: str) -> Sheets:
        if path not in self.workbooks:
            self.workbooks[path] = read_workbook(path)
        return self.workbooks[path]

    def places(self, file: str) -> Iterator[Place]:
        """Where a table stands."""
        table = os.path.splitext(file)[0]
        for path in self.texts:
            root = os.path.splitext(os.path.basename(path))[0]
            if os.path.basename(path) == file or self.words.meaning(Of.TABLE, root) == table:
                yield Place(path)
        for path in self.books:
            for sheet in self.sheets(path):
                if self.words.meaning(Of.TABLE, sheet) == table:
                    yield Place(path, sheet)

    def table(self, file: str, faults: Faults) -> Optional[Table]:
        """A table by the name of its file; None if there is none, or if it cannot be read."""
        places = list(self.places(file))
        if len(places) > 1:
            which = " and ".join(place.called() for place in places)
            faults.add(file, 0, f"it is there more than once: {which}")
            return None
        for place in places:
            if place.called() != file:
                faults.called[file] = place.called()
            if place.sheet is not None:
                rows = [list(map(tidy, row)) for row in self.sheets(place.path)[place.sheet]]
                return Table(place.called(), Cells(rows, Dialect()))
            data = read_bytes(place.path)
            if data is not None:
                cells = read_cells(data, tidy, lambda row, cause: faults.add(file, row, cause))
                return cells and Table(place.called(), cells, place.path)
        return None

    def rows(self, file: str, columns: Sequence[Column], faults: Faults) -> Optional[list[Row]]:
        """The rows of a table but blank ones; None if there is none."""
        table = self.table(file, faults)
        if table is None:
            return [] if file in faults.found else None
        return rows_of_table(file, table, columns, self.words, faults)

    def there(self) -> str:
        """What lies there in place of a table that is missing."""
        names = [os.path.basename(path) for path in [*self.texts, *self.books]]
        for path in self.books:
            book = os.path.basename(path)
            names += [f"the sheet {sheet} of {book}" for sheet in self.sheets(path)]
        more = ["others"] if len(names) > TOLD else []
        return ", ".join([*names[:TOLD], *more])
