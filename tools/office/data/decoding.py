"""The bytes of a table as rows of cells: in UTF-8, UTF-16 or Windows-1252, parted by commas,
semicolons or tabs."""
from __future__ import annotations

import codecs
import csv
import io
from typing import Callable, Iterator, NamedTuple, Optional, Sequence

from office.words.text import cut, shown

# what spreadsheets part cells with
SEPARATORS = ";,\t"
# stands for the letter 0, which some readers of tables refuse; no text of bytes has it
NUL = "\ud800"
# rows of a table at most
ROWS = 100_000
TOLD = 60
WINDOWS = "cp1252"

# of a row, 0 for the whole file, and what is wrong with it
Fault = Callable[[int, str], None]


class Dialect(NamedTuple):
    """How a table was written."""

    encoding: str = "utf-8-sig"
    separator: str = ","
    ending: str = "\r\n"
    # a line before the headings that names the separator
    head: str = ""


class Cells(NamedTuple):
    """The rows of a table as lists of cells, empty ones for blank lines, so that a row's place is
    its number; and how they were written."""

    rows: list[list[str]]
    dialect: Dialect
    # what is not wrong, but to be said
    note: str = ""
    # how each row was written
    texts: Sequence[str] = ()


def encoding_of(data: bytes) -> str:
    """In what a text is written."""
    if data.startswith((codecs.BOM_UTF16_LE, codecs.BOM_UTF16_BE)):
        return "utf-16"
    if data.startswith(codecs.BOM_UTF8):
        return "utf-8-sig"
    # in UTF-16 every second byte of a Western text is 0
    for start, encoding in ((1, "utf-16-le"), (0, "utf-16-be")):
        half = data[start:400:2]
        if half and half.count(0) * 2 > len(half):
            return encoding
    try:
        data.decode("utf-8")
    except UnicodeDecodeError:
        return WINDOWS
    return "utf-8"


def decoded_text(data: bytes, fault: Fault) -> Optional[tuple[str, str]]:
    """A text with its encoding; None is a fault, of each row that cannot be read."""
    encoding = encoding_of(data)
    try:
        return data.decode(encoding), encoding
    except UnicodeDecodeError as wrong:
        if encoding != WINDOWS:
            row = data[: wrong.start].count(b"\n") + 1
            fault(row, f"not {encoding.upper()}, though it begins so")
            return None
    for number, line in enumerate(data.split(b"\n"), 1):
        try:
            line.decode(WINDOWS)
        except UnicodeDecodeError:
            cause = "neither UTF-8 nor Windows-1252: let the spreadsheet write it as CSV in UTF-8"
            fault(number, cause)
    return None


def separator_of(text: str) -> str:
    """What parts the cells: what the headings have most of outside of quotes."""
    head = text.split("\n", 1)[0]
    outside = "".join(head.split('"')[::2])
    return max(SEPARATORS, key=outside.count)


def guessed(text: str) -> str:
    """A note on a text that may be in another encoding than it seems: its first strange row."""
    for number, line in enumerate(text.split("\n"), 1):
        if not line.isascii():
            line = shown(cut(line.strip(), TOLD))
            return f"not in UTF-8, read as Windows-1252: row {number} has {line}"
    return ""


class Lines(Iterator[str]):
    """The lines of a text, and those that a reader took since it was last asked."""

    def __init__(self, text: str) -> None:
        self.lines = io.StringIO(text.replace("\0", NUL), newline="")
        self.since = ""

    def __next__(self) -> str:
        line = next(self.lines)
        self.since += line
        return line

    def taken(self) -> str:
        found, self.since = self.since.replace(NUL, "\0"), ""
        return found


def read_cells(data: bytes, tidy: Callable[[str], str], fault: Fault) -> Optional[Cells]:
    """The cells of a file; None is a fault."""
    found = decoded_text(data, fault)
    if found is None:
        return None
    text, encoding = found
    first, end, rest = text.partition("\n")
    head = ""
    if first.strip().lower() in [f"sep={separator}" for separator in SEPARATORS]:
        # a spreadsheet takes this line in, and does not count it
        separator, text, head = first.strip()[4:], rest, first + end
    else:
        separator = separator_of(text)
    rows: list[list[str]] = []
    texts: list[str] = []
    lines = Lines(text)
    try:
        for cells in csv.reader(lines, delimiter=separator, strict=True):
            rows.append([tidy(cell.replace(NUL, "\0")) for cell in cells])
            texts.append(lines.taken())
            if len(rows) > ROWS:
                fault(0, f"it has more than {ROWS:,} rows")
                return None
    except csv.Error:
        fault(len(rows) + 1, "a quote is not closed, or something stands behind one")
        return None
    dialect = Dialect(encoding, separator, "\r\n" if "\r\n" in text else "\n", head)
    return Cells(rows, dialect, guessed(text) if encoding == WINDOWS else "", texts)
