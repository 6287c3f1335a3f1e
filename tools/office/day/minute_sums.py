"""Checksums of minutes, a line for each block of drafts that the office has seen there:

    0 118 8f2a11c0

The bytes from which and to which it goes, and the CRC-32 of what stood there then. So a word that
is another one by now is found, though it is as good as the one before. The desk does not know this
file; minutes of an older day have none.
"""
from __future__ import annotations

import contextlib
import os
import re
import zlib
from typing import NamedTuple

from office.day.minutes import Minutes
from office.day.parts import Part
from office.day.safe_files import open_or_make, open_there, read_text, share
from office.refused import CONTENT, Refused

LINE = re.compile(r"([0-9]{1,15}) ([0-9]{1,15}) ([0-9a-f]{8})\Z")


class Block(NamedTuple):
    """What stood from one byte of the minutes to another."""

    start: int
    end: int
    checksum: int


def sums_path(part: Part) -> str:
    return part.minutes + ".sums"


def read_blocks(part: Part) -> list[Block]:
    """The blocks of minutes that are known. A line that is torn is left out."""
    found = [LINE.match(line) for line in read_text(sums_path(part)).split("\n")]
    return [Block(int(one[1]), int(one[2]), int(one[3], 16)) for one in found if one]


def bytes_of(part: Part, start: int, end: int) -> bytes:
    with open(open_there(part.minutes, os.O_RDONLY), "rb") as file:
        file.seek(start)
        return file.read(end - start)


def check_minutes(part: Part) -> None:
    """Refuses minutes in which something is another thing than when it was written. What is cut is
    found by who reads them."""
    for start, end, checksum in read_blocks(part):
        found = bytes_of(part, start, end)
        if len(found) == end - start and zlib.crc32(found) != checksum:
            raise Refused(
                f"{part.minutes} is damaged: what stands in its bytes {start} to {end} is not what "
                "was written there; put it back from a copy",
                CONTENT,
            )


class MinuteSums:
    """Adds checksums while the minutes of a part grow."""

    def __init__(self, part: Part) -> None:
        self.part, self._minutes = part, Minutes(part.minutes)
        if self._minutes.size() == 0:
            # those of minutes that are no more
            with contextlib.suppress(OSError):
                os.remove(sums_path(part))
        self._end = max((block.end for block in read_blocks(part)), default=0)

    def read_on(self) -> None:
        """Adds a block of what is new, if anything is."""
        if not self._minutes.has_grown():
            return
        self._minutes.read_on()
        start, end = self._end, self._minutes.read_to()
        if end <= start:
            return
        checksum = zlib.crc32(bytes_of(self.part, start, end))
        file = open_or_make(sums_path(self.part), os.O_WRONLY | os.O_APPEND, 0o640)
        try:
            share(file, 0o640)
            os.write(file, f"{start} {end} {checksum:08x}\n".encode())
        finally:
            os.close(file)
        self._end = end
