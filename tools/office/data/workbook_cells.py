"""The cells of a workbook, XLSX or ODS, as people see them: read by openpyxl or odfpy. Run by
itself with a path it prints them as JSON, for a Python that does not have these."""
from __future__ import annotations

import datetime
import json
import sys
import zipfile
from importlib import import_module
from typing import Any, Iterator, Optional

# bytes of a workbook's parts together at most, rows of a sheet at most, and columns that are read
LARGEST, ROWS, COLUMNS = 256 << 20, 100_000, 100

Sheets = dict[str, list[list[str]]]


class Damaged(Exception):
    """A file is no workbook, or too large."""


def clock_text(time: datetime.time) -> str:
    return f"{time.hour}:{time.minute:02}"


def text_of(value: Any, form: str = "General") -> str:
    """A value as a person would type it."""
    if value is None:
        return ""
    if isinstance(value, datetime.datetime):
        is_time = value.year <= 1900
        if is_time or value.time() == datetime.time():
            return clock_text(value.time()) if is_time else value.date().isoformat()
        return f"{value.date().isoformat()} {clock_text(value.time())}"
    if isinstance(value, datetime.time):
        return clock_text(value)
    if isinstance(value, datetime.timedelta):
        minutes = int(value.total_seconds()) // 60
        return f"{minutes // 60}:{minutes % 60:02}"
    if isinstance(value, float):
        if value.is_integer():
            return str(int(value))
        return f"{value:.2f}" if form == "0.00" else f"{value:.10g}"
    return str(value)


def filled_down(rows: list[list[str]], merged: list[tuple[int, int, int]]) -> None:
    """Puts what merged cells have into each row that they cover: first and last row, and column."""
    for first, last, column in merged:
        if first < len(rows) and column < len(rows[first]):
            for row in rows[first + 1 : last + 1]:
                row += [""] * (column + 1 - len(row))
                row[column] = rows[first][column]


def xlsx_sheets(path: str) -> Sheets:
    """The sheets of an XLSX."""
    book = import_module("openpyxl").load_workbook(path, data_only=True)
    found: Sheets = {}
    for sheet in book.worksheets:
        if sheet.max_row > ROWS:
            raise Damaged(f"the sheet {sheet.title} has more than {ROWS:,} rows")
        rows = [
            [text_of(cell.value, cell.number_format) for cell in row[:COLUMNS]]
            for row in sheet.iter_rows()
        ]
        ranges = sheet.merged_cells.ranges
        filled_down(rows, [(one.min_row - 1, one.max_row - 1, one.min_col - 1) for one in ranges])
        found[sheet.title] = rows
    return found


def ods_text(cell: Any) -> str:
    """What a cell of an ODS has."""
    kind, value = cell.getAttribute("valuetype"), cell.getAttribute("value")
    if kind == "date":
        return text_of(datetime.datetime.fromisoformat(cell.getAttribute("datevalue")))
    if kind == "time":
        hours, minutes = cell.getAttribute("timevalue")[2:].split("M")[0].split("H")
        return f"{int(hours)}:{int(minutes):02}"
    if kind == "float" and float(value).is_integer():
        return str(int(float(value)))
    extract = import_module("odf.teletype").extractText
    paragraphs = cell.getElementsByType(import_module("odf.text").P)
    return " ".join(str(extract(one)) for one in paragraphs)


def ods_row(row: Any) -> Iterator[tuple[str, int]]:
    """The cells of a row, each with how many rows it covers."""
    names = ("table-cell", "covered-table-cell")
    for cell in row.childNodes:
        if cell.qname[1] in names:
            count = int(cell.getAttribute("numbercolumnsrepeated") or 1)
            spans = 1
            if cell.qname[1] == names[0]:
                spans = int(cell.getAttribute("numberrowsspanned") or 1)
            for _ in range(min(count, COLUMNS)):
                yield ods_text(cell), spans


def ods_sheets(path: str) -> Sheets:
    """The sheets of an ODS."""
    table = import_module("odf.table")
    book = import_module("odf.opendocument").load(path)
    found: Sheets = {}
    for sheet in book.spreadsheet.getElementsByType(table.Table):
        rows: list[list[str]] = []
        merged: list[tuple[int, int, int]] = []
        for row in sheet.getElementsByType(table.TableRow):
            cells = list(ods_row(row))[:COLUMNS]
            count = int(row.getAttribute("numberrowsrepeated") or 1)
            for column, (_, spans) in enumerate(cells):
                if spans > 1:
                    merged.append((len(rows), len(rows) + spans - 1, column))
            texts = [text for text, _ in cells]
            # the rows behind the last one are written as one that is there often
            rows += [list(texts) for _ in range(count if any(texts) else min(count, 1000))]
            if len(rows) > ROWS:
                raise Damaged(f"the sheet {sheet.getAttribute('name')} has more than {ROWS:,} rows")
        filled_down(rows, merged)
        found[str(sheet.getAttribute("name"))] = rows
    return found


def sheets_of(path: str) -> Sheets:
    """The sheets of a workbook by their names, without blank rows at their ends."""
    try:
        with zipfile.ZipFile(path) as packed:
            if sum(part.file_size for part in packed.infolist()) > LARGEST:
                raise Damaged(f"it has more than {LARGEST >> 20} MiB")
        found = ods_sheets(path) if path.lower().endswith(".ods") else xlsx_sheets(path)
    except (ImportError, Damaged):
        raise
    except Exception as fault:  # a reader may fail in any way on what is no workbook
        raise Damaged(f"it is no workbook ({fault})") from None
    for rows in found.values():
        while rows and not any(rows[-1]):
            rows.pop()
    return found


def lacking(fault: ImportError) -> Optional[str]:
    """The Debian package that is not there."""
    return {"openpyxl": "python3-openpyxl", "odf": "python3-odf"}.get((fault.name or "")[:8])


def main(path: str) -> int:
    try:
        json.dump(sheets_of(path), sys.stdout)
    except ImportError:
        return 4
    except Damaged as fault:
        print(fault, file=sys.stderr)
        return 1
    return 0


if __name__ == "__main__":
    sys.exit(main(sys.argv[1]))
