"""Edits: what a planner changes. A line of the desk is parsed into one where it is read."""
from __future__ import annotations

from dataclasses import dataclass, replace
from enum import Enum
from typing import Optional, Sequence

from office.day.desk_words import words_of
from office.day.lecture import Place, Slot

# stands in an edit for a room that is not known
UNKNOWN = "*"


class Kind(Enum):
    """What an edit does. The value is the word of the desk."""

    PLACE = "place"
    MOVE = "move"
    SWAP = "swap"
    REROOM = "reroom"
    DROP = "drop"


# what the words of an edit are, after its first one
FORMS: dict[Kind, tuple[str, ...]] = {
    Kind.PLACE: ("course", "room", "now"),
    Kind.MOVE: ("course", "was", "room", "now"),
    Kind.SWAP: ("course", "was", "other", "now"),
    Kind.REROOM: ("course", "room", "now"),
    Kind.DROP: ("course", "was"),
}
KINDS = {kind.value: kind for kind in Kind}
SLOTS = ("was", "now")


@dataclass(frozen=True)
class Edit:
    """A lecture of `course` comes from a slot to another one, and into a room; of a swap the
    lecture of `other` comes back. What is not there before, or after, has no slot."""

    kind: Kind
    course: str
    was: Optional[Slot] = None
    now: Optional[Slot] = None
    room: str = ""
    other: str = ""

    @staticmethod
    def place(course: str, room: str, slot: Slot) -> Edit:
        return Edit(Kind.PLACE, course, None, slot, room)

    @staticmethod
    def move(course: str, was: Slot, room: str, now: Slot) -> Edit:
        return Edit(Kind.MOVE, course, was, now, room)

    @staticmethod
    def swap(course: str, was: Slot, other: str, now: Slot) -> Edit:
        return Edit(Kind.SWAP, course, was, now, "", other)

    @staticmethod
    def reroom(course: str, room: str, slot: Slot) -> Edit:
        return Edit(Kind.REROOM, course, slot, slot, room)

    @staticmethod
    def drop(course: str, slot: Slot) -> Edit:
        return Edit(Kind.DROP, course, slot)

    # as a line of the desk

    @staticmethod
    def take(words: Sequence[str]) -> tuple[Edit, Sequence[str]]:
        """The edit that stands in front, and the words after it; a `ValueError` if none does."""
        if not words or words[0] not in KINDS:
            raise ValueError("no edit")
        kind, at, found = KINDS[words[0]], 1, {}
        for part in FORMS[kind]:
            size = 2 if part in SLOTS else 1
            taken = words[at : at + size]
            if len(taken) < size:
                raise ValueError("a part of an edit")
            found[part] = slot_of(taken) if part in SLOTS else taken[0]
            at += size
        edit = Edit(kind, **found)  # type: ignore[arg-type]
        return replace(edit, was=edit.now) if kind is Kind.REROOM else edit, words[at:]

    @staticmethod
    def parse(line: str) -> Optional[Edit]:
        """The edit that a line is; None if it is none."""
        try:
            edit, rest = Edit.take(words_of(line))
        except ValueError:
            return None
        return None if rest else edit

    def __str__(self) -> str:
        """The edit as the desk writes it."""
        words = [self.kind.value]
        for part in FORMS[self.kind]:
            value = getattr(self, part)
            words += map(str, value) if part in SLOTS else [value]
        return " ".join(words)

    # what it does

    @property
    def about(self) -> str:
        """The room, or of a swap the other course, that a planner chooses by it."""
        return self.other or self.room

    def courses(self) -> list[str]:
        """The courses that it names."""
        return [self.course, self.other] if self.other else [self.course]

    def before(self) -> list[Place]:
        """Where lectures stand that it takes up."""
        found = [(self.course, self.was)] + ([(self.other, self.now)] if self.other else [])
        return [(course, slot) for course, slot in found if slot is not None]

    def after(self) -> list[Place]:
        """Where they stand after it."""
        found = [(self.course, self.now)] + ([(self.other, self.was)] if self.other else [])
        return [(course, slot) for course, slot in found if slot is not None]

    def inverse(self, room: str = UNKNOWN) -> Edit:
        """The edit that takes it back, of a lecture that had this room before."""
        kind = {Kind.PLACE: Kind.DROP, Kind.DROP: Kind.PLACE}.get(self.kind, self.kind)
        room = "" if kind in (Kind.SWAP, Kind.DROP) else room
        return Edit(kind, self.course, self.now, self.was, room, self.other)

    def may_be(self, edit: Edit) -> bool:
        """Whether it is another edit, as far as it is known."""
        return edit == (replace(self, room=edit.room) if self.room == UNKNOWN else self)


def slot_of(words: Sequence[str]) -> Slot:
    """The slot of two words; a `ValueError` if they are none."""
    if not all(word.isascii() and word.isdigit() for word in words):
        raise ValueError("no slot")
    return int(words[0]), int(words[1])


def edits_in(lines: Sequence[str]) -> list[Edit]:
    """The lines that are edits."""
    found = map(Edit.parse, lines)
    return [edit for edit in found if edit is not None]
