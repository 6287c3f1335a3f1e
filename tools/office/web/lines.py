"""What windows are told, as lines of JSON, plain or packed: what many are told is written and
packed once."""
from __future__ import annotations

import functools
import json
import struct
import zlib
from typing import Any

# how hard a line is packed
LEVEL = 4
# how a packed stream begins, and how it ends
BEGIN, END = b"\x1f\x8b\x08\x00\x00\x00\x00\x00\x00\xff", b"\x03\x00"


class Line:
    """A line of news. Packed it refers to no other one, so that it stands in any stream."""

    def __init__(self, event: Any) -> None:
        text = json.dumps(event, separators=(",", ":")) if event else ""
        self.text = text.encode() + b"\n"

    @functools.cached_property
    def packed(self) -> bytes:
        pack = zlib.compressobj(LEVEL, zlib.DEFLATED, -zlib.MAX_WBITS)
        return pack.compress(self.text) + pack.flush(zlib.Z_FULL_FLUSH)


# says that the window is heard still
STILL = Line(None)


class Stream:
    """The lines of one window as they are sent: plain, or as one gzip file without an end."""

    def __init__(self, is_packed: bool) -> None:
        self.is_packed, self._begins = is_packed, BEGIN
        self._sum = self._size = 0

    def bytes_of(self, line: Line) -> bytes:
        if not self.is_packed:
            return line.text
        begins, self._begins = self._begins, b""
        self._sum = zlib.crc32(line.text, self._sum)
        self._size += len(line.text)
        return begins + line.packed

    def end(self) -> bytes:
        if not self.is_packed:
            return b""
        return END + struct.pack("<II", self._sum, self._size & 0xFFFFFFFF)
