"""Workbooks: tables as sheets of a new XLSX, and sheets of an XLSX or an ODS with other cells. Run
by itself it takes what is to be done as JSON, for a Python that has no openpyxl or odfpy."""
from __future__ import annotations

import json
import re
import sys
from importlib import import_module
from typing import Any

Sheets = dict[str, list[list[str]]]

NUMBER = re.compile(r"0|[1-9]\d{0,8}")


def value_of(text: str) -> object:
    """A cell with a whole number is one for a spreadsheet, too."""
    return int(text) if NUMBER.fullmatch(text) else text


def write_xlsx(path: str, source: str, sheets: Sheets) -> None:
    """Writes sheets, into a workbook that there is, or into a new one."""
    openpyxl = import_module("openpyxl")
    book = openpyxl.load_workbook(source) if source else openpyxl.Workbook()
    if not source:
        book.remove(book.active)
    for name, rows in sheets.items():
        sheet = book[name] if name in book.sheetnames else book.create_sheet(name)
        for merged in list(sheet.merged_cells.ranges):
            if merged.min_row > 1:
                sheet.unmerge_cells(str(merged))
        last, width = max(sheet.max_row, len(rows)), max(map(len, rows), default=0)
        for number in range(1, last + 1):
            cells = rows[number - 1] if number <= len(rows) else []
            for column in range(1, max(width, sheet.max_column) + 1):
                text = cells[column - 1] if column <= len(cells) else ""
                cell = sheet.cell(number, column)
                cell.value = value_of(text) if text else None
                if text and isinstance(cell.value, str):
                    # a text that looks as a formula is none
                    cell.data_type = "s"
    book.save(path)


def ods_sheet(name: str, rows: list[list[str]]) -> Any:
    """A sheet of an ODS."""
    table, paragraph = import_module("odf.table"), import_module("odf.text").P
    sheet = table.Table(name=name)
    for cells in rows:
        row = table.TableRow()
        for text in cells:
            value = value_of(text)
            kind = {"valuetype": "float", "value": value} if isinstance(value, int) else {}
            cell = table.TableCell(**(kind or {"valuetype": "string"} if text else {}))
            if text:
                cell.addElement(paragraph(text=text))
            row.addElement(cell)
        sheet.addElement(row)
    return sheet


def write_ods(path: str, source: str, sheets: Sheets) -> None:
    """Writes sheets into a workbook that there is, in the places of those of the same names."""
    document, table = import_module("odf.opendocument"), import_module("odf.table")
    book = document.load(source) if source else document.OpenDocumentSpreadsheet()
    tables = book.spreadsheet.getElementsByType(table.Table)
    there = {one.getAttribute("name"): one for one in tables}
    for name, rows in sheets.items():
        made = ods_sheet(name, rows)
        if name in there:
            book.spreadsheet.insertBefore(made, there[name])
            book.spreadsheet.removeChild(there[name])
        else:
            book.spreadsheet.addElement(made)
    book.save(path)


def write(path: str, source: str, sheets: Sheets) -> None:
    (write_ods if path.lower().endswith(".ods") else write_xlsx)(path, source, sheets)


def main() -> int:
    wanted = json.load(sys.stdin)
    try:
        write(wanted["path"], wanted["source"], wanted["sheets"])
    except ImportError:
        return 4
    return 0


if __name__ == "__main__":
    sys.exit(main())
