"""The timetable of a day after so many accepted drafts: of an open day and of a closed one."""
from __future__ import annotations

import os
from dataclasses import dataclass
from functools import cached_property
from typing import Optional

from office.day.costs import Costs
from office.day.desk_words import encoded
from office.day.folder import Day
from office.day.instance import Instance
from office.day.lecture import Lecture
from office.day.minutes import Entry
from office.day.parts import FIRST, Part, read_parts
from office.day.timetable import Timetable
from office.past.replay import play_all, play_costs
from office.refused import CONTENT, Refused
from office.words.text import counted


@dataclass(frozen=True)
class At:
    """A day after its first drafts, as the program answers."""

    day: Day
    # the part of the day in which that is
    part: Part
    # after how many of how many accepted drafts
    number: int
    accepted: int
    instance: Instance
    # in the order of courses and slots
    lectures: list[Lecture]
    costs: Costs
    missing: dict[str, int]

    @cached_property
    def timetable(self) -> Timetable:
        return Timetable(self.instance, self.lectures)

    def solution(self) -> bytes:
        """The timetable as a solution for the program, as its `list` prints it."""
        return encoded("".join(f"{lecture.words()}\n" for lecture in self.lectures))

    def is_newest(self) -> bool:
        return self.number == self.accepted and self.part.is_last()

    def title(self) -> str:
        """Which timetable this is, in words."""
        if self.number == 0 and self.part.number == FIRST:
            return f"{self.day.name}, at its start"
        if self.is_newest():
            return f"{self.day.name}, after {counted(self.number, 'draft')}"
        return f"{self.day.name}, after draft {self.number} of {self.accepted}"


def part_at(
    parts: list[tuple[Part, list[Entry]]], number: Optional[int]
) -> tuple[Part, list[Entry]]:
    """The part of a day that has a draft, and what was accepted in it up to that one; without a
    number the last part. The start of the day is in its first part."""
    part, entries = parts[-1]
    if number is None:
        return part, entries
    for part, entries in parts:
        if number == 0 or (entries and number <= entries[-1].number):
            break
    return part, [entry for entry in entries if entry.number <= number]


def read_at(day: Day, number: Optional[int] = None) -> At:
    """The timetable of a day after a draft; without a number the newest one."""
    day.facts()
    parts = read_parts(day)
    accepted = sum(len(entries) for _, entries in parts)
    if number is not None and not 0 <= number <= accepted:
        has = counted(accepted, "accepted draft") if accepted else "no accepted draft"
        raise Refused(f"{day.name} has {has}, and no draft {number}", CONTENT)
    part, entries = part_at(parts, number)
    instance = part.instance()
    played = play_all(part, instance, [entry.edits for entry in entries])
    return At(day, part, accepted if number is None else number, accepted, instance, *played)


def parse_at(words: str) -> tuple[Day, Optional[int]]:
    """A day and a draft's number, as in `monday:9`; without a number the newest timetable."""
    path, colon, number = words.rpartition(":")
    if colon and number.isascii() and number.isdigit() and not os.path.exists(words):
        return Day(path), int(number)
    return Day(words), None


def costs_around(day: Day, number: int) -> tuple[Costs, Costs]:
    """What the timetable cost before and after a draft, by its number."""
    part, entries = part_at(read_parts(day), number)
    edits = [entry.edits for entry in entries]
    before, after = play_costs(part, edits, len(edits) - 1)
    return before, after
