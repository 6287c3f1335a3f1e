"""Who committed each draft, when and why: a text file of the day, a line for each draft.

    12<TAB>2026-11-29T10:15:00.123+0100<TAB>1<TAB>ben<TAB>Room r04 is closed on Wednesday.

The desk does not know this file; what was committed is in the minutes alone.
"""
from __future__ import annotations

import os
from dataclasses import dataclass
from typing import Iterable

from office.day.desk_words import decoded
from office.day.folder import Day
from office.day.safe_files import file_size, open_there
from office.day.shared_lines import add_line, fields_of, is_number, read_lines


@dataclass(frozen=True)
class CommitNote:
    """The number of a draft, the time of its commit, the seat, who sat there, and the reason, which
    may be empty."""

    number: int
    time: str
    planner: int
    name: str
    why: str


def notes_path(day: Day) -> str:
    return day.file("reasons")


def notes_of(lines: Iterable[list[str]]) -> list[CommitNote]:
    return [
        CommitNote(int(number), time, int(planner), name, why)
        for number, time, planner, name, why in lines
        if is_number(number) and is_number(planner)
    ]


def read_commit_notes(day: Day) -> dict[int, CommitNote]:
    """The notes of a day by the numbers of the drafts."""
    return {note.number: note for note in notes_of(read_lines(notes_path(day), 5))}


class NoteReader:
    """A reader of notes that grow: each whole line is read once."""

    def __init__(self, day: Day) -> None:
        self.path = notes_path(day)
        # how long the notes were when they were read, and how much of them is whole lines
        self.size = self._at = 0

    def read_on(self) -> list[CommitNote]:
        """The notes that are there since the last time; all of them if the file is another one by
        now, and shorter."""
        size = file_size(self.path)
        if size == self.size:
            return []
        if size < self.size:
            self._at = 0
        try:
            with open(open_there(self.path, os.O_RDONLY), "rb") as file:
                file.seek(self._at)
                text = file.read()
        except OSError:
            return []
        self.size = self._at + len(text)
        whole = text[: text.rfind(b"\n") + 1]
        self._at += len(whole)
        return notes_of(fields_of(decoded(whole), 5))


def keep_commit_note(day: Day, note: CommitNote) -> str:
    """Writes a note, and has it on the disk when this returns; answers why it could not be
    written, or nothing."""
    fields = (str(note.number), note.time, str(note.planner), note.name, note.why)
    return add_line(notes_path(day), fields)
