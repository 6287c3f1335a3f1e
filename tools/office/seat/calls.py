"""What is said to the desk: an edit, a turn or a look. A line becomes one where it is read."""
from __future__ import annotations

from dataclasses import dataclass
from enum import Enum
from typing import Optional, Union

from office.day.desk_words import words_of
from office.day.edits import Edit


class Turn(Enum):
    """What is done with a draft as a whole. The value is the word of the desk."""

    OPEN = "open"
    COMMIT = "commit"
    REFRESH = "refresh"
    ABANDON = "abandon"
    UNDO = "undo"
    REDO = "redo"
    STATUS = "status"
    HELP = "help"
    LEAVE = "leave"

    def __str__(self) -> str:
        return self.value


@dataclass(frozen=True)
class Look:
    """A question about a timetable: the newest one (`show`), or that of the draft, where `peek`
    makes it no part of the draft."""

    words: tuple[str, ...]
    is_of_newest: bool = False


Call = Union[Edit, Turn, Look]
TURNS = {turn.value: turn for turn in Turn}


def read_call(line: str) -> Optional[Call]:
    """What a line says to the desk; None if it has no words, or says nothing that is known."""
    words = words_of(line)
    if not words:
        return None
    if words[0] in TURNS:
        return TURNS[words[0]] if len(words) == 1 else None
    if words[0] in ("show", "peek"):
        return Look(tuple(words[1:]), words[0] == "show")
    return Edit.parse(line) or Look(tuple(words))
