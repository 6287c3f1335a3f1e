"""The minutes of a desk: the accepted drafts in the order of their commits. A day has those of each
of its parts."""
from __future__ import annotations

import os
import re
from dataclasses import dataclass
from typing import Sequence

from office.day.desk_words import decoded
from office.day.edits import Edit
from office.day.safe_files import open_there

# an entry begins with its planner, and with how many calls it has
HEAD = re.compile(rb"entry [0-9]{1,4} [0-9]{1,9}\Z")


@dataclass(frozen=True)
class Entry:
    """An accepted draft: its number from 1, its planner, and the edits that were made."""

    number: int
    planner: int
    edits: list[Edit]


def edits_of(lines: Sequence[bytes]) -> list[Edit]:
    """The edits that were made, of calls with their answers."""
    pairs = zip(lines[0::2], lines[1::2])
    found = (Edit.parse(decoded(call)) for call, answer in pairs if answer == b"done")
    return [edit for edit in found if edit is not None]


class Minutes:
    """A reader of minutes that grow: each whole entry is read once."""

    def __init__(self, path: str, before: int = 0) -> None:
        self.path = path
        # how many drafts of the day were accepted before these
        self.before = before
        self.entries: list[Entry] = []
        # whether something stands behind them that is no entry, so that nothing more is read
        self.is_damaged = False
        self._at = 0

    def read_to(self) -> int:
        """How far they are read."""
        return self._at

    def size(self) -> int:
        try:
            return os.stat(self.path).st_size
        except OSError:
            return self._at

    def is_readable(self) -> bool:
        return os.access(self.path, os.R_OK)

    def has_grown(self) -> bool:
        return self.size() > self._at

    def read_on(self) -> list[Entry]:
        """The entries that are there since the last time. What is torn at the end is left for the
        next time."""
        try:
            with open(open_there(self.path, os.O_RDONLY), "rb") as file:
                file.seek(self._at)
                text = file.read()
        except OSError:
            return []
        new: list[Entry] = []
        *lines, _ = text.split(b"\n")
        at = 0
        while at < len(lines):
            head = lines[at].split()
            if not HEAD.match(b" ".join(head)):
                self.is_damaged = True
                break
            end = at + 1 + 2 * int(head[2])
            if end > len(lines):
                break
            edits = edits_of(lines[at + 1 : end])
            number = self.before + len(self.entries) + len(new) + 1
            new.append(Entry(number, int(head[1]), edits))
            self._at += sum(len(line) + 1 for line in lines[at:end])
            at = end
        self.entries += new
        return new


def read_minutes(path: str) -> list[Entry]:
    """The whole entries of minutes."""
    return Minutes(path).read_on()
