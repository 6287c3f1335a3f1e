"""Files of lines to which the clients of a day add: each line is there whole or not at all."""
from __future__ import annotations

import contextlib
import fcntl
import os
from typing import Sequence

from office.day.desk_words import encoded, words_of
from office.day.safe_files import open_or_make, read_text, share


def one_line(text: str) -> str:
    """A text without line ends and tabs. Other blanks stay, as a name may have them."""
    return " ".join(words_of(text))


def add_line(path: str, fields: Sequence[str]) -> str:
    """Adds a line, and has it on the disk when this returns; answers why it could not be written,
    or nothing."""
    line = "\t".join(map(one_line, fields)) + "\n"
    try:
        end = open_or_make(path, os.O_RDWR | os.O_APPEND, 0o660)
    except OSError as fault:
        return fault.strerror or "the disk fails"
    try:
        share(end)
        fcntl.flock(end, fcntl.LOCK_EX)
        size = os.fstat(end).st_size
        # a line that was cut, as by a full disk, ends first
        is_cut = size and os.pread(end, 1, size - 1) != b"\n"
        rest = (b"\n" if is_cut else b"") + encoded(line)
        while rest:
            rest = rest[os.write(end, rest) :]
        os.fsync(end)
    except OSError as fault:
        return fault.strerror or "the disk fails"
    finally:
        os.close(end)
    return ""


def is_number(text: str) -> bool:
    """Whether a field is a number of this day."""
    return text.isascii() and text.isdigit() and len(text) < 10


def fields_of(text: str, count: int) -> list[list[str]]:
    """The lines of so many fields. A line that is torn is left out."""
    found = [line.split("\t") for line in text.split("\n")[:-1]]
    return [fields for fields in found if len(fields) == count]


def read_lines(path: str, count: int) -> list[list[str]]:
    """The lines of so many fields of a file; none of one that is closed to the reader."""
    with contextlib.suppress(OSError):
        return fields_of(read_text(path), count)
    return []
